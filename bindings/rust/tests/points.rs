//! Sizes in Paris points: what the rounding gives, lasts that are not measured, and measures outside the rules.

use btreap::sys::{self, PointedReply};
use btreap::{Measure, Refusal, Size};

fn size(length: u64, correction: i32) -> Result<Option<Size>, Refusal> {
    btreap::points(Measure::new(length, correction))
}

/// The reply with all its numbers.
fn reply(length: u64, correction: i32) -> PointedReply {
    // SAFETY: it is handed two numbers, and no memory.
    unsafe { sys::btreap_points(length, correction) }
}

/// A t of 26,500 gives 80 half points, rest −500: a half goes up.
#[test]
fn the_example_of_document_02() {
    for correction in [-5_000, -120, 0, 1, 5_000] {
        let length = (26_500 - correction) as u64;
        assert_eq!(size(length, correction), Ok(Some(Size { half_points: 80, rest: -500 })));
    }
    assert_eq!(size(26_499, 0), Ok(Some(Size { half_points: 79, rest: 497 })));
    assert_eq!(size(25_500, 0), Ok(Some(Size { half_points: 77, rest: -500 })));
    assert_eq!(size(25_833, 0), Ok(Some(Size { half_points: 77, rest: 499 })));
}

#[test]
fn the_ends_of_the_rules() {
    for (length, correction, half_points) in [(10_000, -5_000, 15), (10_000, 5_000, 45), (40_000, -5_000, 105), (40_000, 5_000, 135)] {
        assert_eq!(size(length, correction), Ok(Some(Size { half_points, rest: 0 })));
    }
}

/// Only one whole number of half points leaves a rest from −500 to 499.
#[test]
fn every_length_is_rounded() {
    for correction in [-5_000, -1, 0, 1, 5_000] {
        for length in Measure::LENGTHS {
            let Size { half_points, rest } = size(length, correction).unwrap().expect("measured");
            assert_eq!(1_000 * half_points as i64 + rest, 3 * (length as i64 + i64::from(correction)));
            assert!((-500..=499).contains(&rest), "{length}, {correction}");
        }
    }
}

#[test]
fn a_last_that_is_not_measured_has_no_size() {
    assert_eq!(btreap::points(Measure::NONE), Ok(None));
    assert_eq!(reply(0, 0), PointedReply { refusal: 0, measured: 0, half_points: 0, rest: 0 });
}

/// A refusal has zeros beside its number.
#[test]
fn measures_outside_the_rules() {
    let lengths = [1, 9_999, 40_001, 65_536 + 26_500, 1 << 32, (1 << 32) + 26_500, 1 << 63, u64::MAX].map(|length| (length, 0));
    let corrections = [i32::MIN, -65_536, -5_001, 5_001, 65_536, i32::MAX].map(|correction| (26_500, correction));
    let left_over = [i32::MIN, -5_000, -1, 1, 5_000, i32::MAX].map(|correction| (0, correction));
    for (length, correction) in lengths.into_iter().chain(corrections).chain(left_over) {
        assert_eq!(size(length, correction), Err(Refusal::WrongMeasure), "{length}, {correction}");
        assert_eq!(reply(length, correction), PointedReply { refusal: 12, measured: 0, half_points: 0, rest: 0 });
    }
}
