//! The measure of a key.

use std::ops::RangeInclusive;

/// A key's measure: its length and its heel correction, both in hundredths of a millimetre. A key that is not measured has
/// [`Measure::NONE`]. The two numbers may be any; a call that is handed a measure outside the rules refuses it with 12.
#[derive(Clone, Copy, Debug, Default, PartialEq, Eq)]
pub struct Measure {
    /// One of [`Measure::LENGTHS`]; 0 when the key is not measured.
    pub length: u64,
    /// One of [`Measure::CORRECTIONS`]; 0 when the key is not measured.
    pub correction: i32,
}

impl Measure {
    /// The lengths of measured keys.
    pub const LENGTHS: RangeInclusive<u64> = 10_000..=40_000;

    /// The corrections of measured keys.
    pub const CORRECTIONS: RangeInclusive<i32> = -5_000..=5_000;

    /// That of a key which is not measured.
    pub const NONE: Measure = Measure::new(0, 0);

    /// The measure of this length and this correction.
    pub const fn new(length: u64, correction: i32) -> Measure {
        Measure { length, correction }
    }

    /// Whether a key with this measure is a measured one.
    pub const fn is_measured(self) -> bool {
        self.length != 0
    }
}
