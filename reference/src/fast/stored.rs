//! A right measure in few bytes, in the form in which slots and images store it.

use crate::measure::*;

/// The two words of a right measure: neither has more than two bytes.
#[derive(Clone, Copy, Default)]
pub struct Stored {
    pub length: u16,
    pub correction: u16,
}

/// The greatest correction as it is stored.
const GREATEST_STORED: u64 = (GREATEST_CORRECTION - LEAST_CORRECTION) as u64;

impl Stored {
    /// Both words of a key that is not measured.
    pub const NONE: Stored = Stored {
        length: 0,
        correction: 0,
    };

    /// None when the measure is outside the rules.
    #[inline(always)]
    pub fn new(measure: Measure) -> Option<Stored> {
        let Measure { length, correction } = measure;
        let raised = i64::from(correction) - i64::from(LEAST_CORRECTION);
        let stored = if length == 0 {
            i64::from(correction)
        } else {
            raised
        };
        are_right(length, stored as u64).then_some(Stored {
            length: length as u16,
            correction: stored as u16,
        })
    }

    /// None when the words are those of no right measure.
    #[inline(always)]
    pub fn of_words(length: u64, correction: u64) -> Option<Stored> {
        are_right(length, correction).then_some(Stored {
            length: length as u16,
            correction: correction as u16,
        })
    }

    pub fn measure(self) -> Measure {
        match self.length {
            0 => Measure::NONE,
            length => Measure::new(length.into(), i32::from(self.correction) + LEAST_CORRECTION),
        }
    }
}

/// Whether two words are those of a right measure.
#[inline(always)]
pub fn are_right(length: u64, correction: u64) -> bool {
    let is_length = length.wrapping_sub(LEAST_LENGTH) <= GREATEST_LENGTH - LEAST_LENGTH;
    (is_length & (correction <= GREATEST_STORED)) | ((length | correction) == 0)
}

#[cfg(test)]
mod tests {
    use super::*;

    const LENGTHS: [u64; 9] = [
        0,
        1,
        9_999,
        10_000,
        25_000,
        40_000,
        40_001,
        1 << 32,
        u64::MAX,
    ];

    #[test]
    fn measures_are_stored_as_the_definition_says() {
        for length in LENGTHS {
            for correction in [i32::MIN, -5_001, -5_000, -1, 0, 1, 5_000, 5_001, i32::MAX] {
                let measure = Measure::new(length, correction);
                let stored = Stored::new(measure);
                assert_eq!(stored.is_some(), measure.is_right());
                if let Some(stored) = stored {
                    let words = [stored.length, stored.correction].map(u64::from);
                    assert_eq!(words, measure.words());
                    assert_eq!(stored.measure(), measure);
                }
            }
        }
    }

    #[test]
    fn words_are_right_where_the_definition_says() {
        for length in LENGTHS {
            for correction in [0, 1, 5_000, 9_999, 10_000, 10_001, 65_536, u64::MAX] {
                let measure = Measure::of_words([length, correction]);
                let stored = Stored::of_words(length, correction);
                assert_eq!(stored.map(Stored::measure), measure);
            }
        }
    }
}
