//! Document 02, request N4: the measure of a key.

/// "a length in hundredths of a millimetre, 10,000 to 40,000"
pub const LEAST_LENGTH: u64 = 10_000;
pub const GREATEST_LENGTH: u64 = 40_000;

/// "a signed heel correction, −5,000 to 5,000, in the same unit"
pub const LEAST_CORRECTION: i32 = -5_000;
pub const GREATEST_CORRECTION: i32 = 5_000;

/// A length and a correction as they are handed in: any numbers.
#[derive(Clone, Copy, Debug, Default, PartialEq, Eq)]
pub struct Measure {
    pub length: u64,
    pub correction: i32,
}

impl Measure {
    /// "Length 0 means not measured, and its correction is then 0."
    pub const NONE: Measure = Measure::new(0, 0);

    pub const fn new(length: u64, correction: i32) -> Measure {
        Measure { length, correction }
    }

    /// Whether the measure is within the rules.
    pub fn is_right(self) -> bool {
        let Measure { length, correction } = self;
        let is_length = (LEAST_LENGTH..=GREATEST_LENGTH).contains(&length);
        let is_correction = (LEAST_CORRECTION..=GREATEST_CORRECTION).contains(&correction);
        (is_length && is_correction) || self == Measure::NONE
    }

    /// Whether a key with this right measure is a measured one.
    pub fn is_measured(self) -> bool {
        self.length != 0
    }

    /// The two words of a right measure: the length, and "the correction stored
    /// as itself plus 5,000, and as 0 when not measured".
    pub fn words(self) -> [u64; 2] {
        if !self.is_measured() {
            return [0, 0];
        }
        [self.length, (self.correction + GREATEST_CORRECTION) as u64]
    }

    /// The right measure that has these words; none when no such has.
    pub fn of_words(words: [u64; 2]) -> Option<Measure> {
        let measure = match words {
            [0, _] => Measure::NONE,
            [length, stored] => {
                Measure::new(length, i32::try_from(stored).ok()? - GREATEST_CORRECTION)
            }
        };
        (measure.is_right() && measure.words() == words).then_some(measure)
    }
}
