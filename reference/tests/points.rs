//! Sizes in Paris points: document 02's example, halves, lasts without a measure, the
//! ends of the rules and what is turned down; by both forms.

mod common;

use common::{Random, WRONG};
use reference::fast;
use reference::measure::Measure;
use reference::points::{points, PointsReply};

/// The sizes of the literal form and those of the fast form.
const FORMS: [fn(Measure) -> PointsReply; 2] = [points, fast::points];

/// By both forms a last with this measure has this size and this rest.
#[track_caller]
fn sized(length: u64, correction: i32, half_points: u64, rest: i64) {
    let due = PointsReply {
        refusal: 0,
        measured: true,
        half_points,
        rest,
    };
    let measure = Measure::new(length, correction);
    assert_eq!(FORMS.map(|points| points(measure)), [due; 2], "{measure:?}");
}

/// "A t of 26,500 gives 80 half points, rest −500", whatever it is made of.
#[test]
fn the_example_of_the_document() {
    for correction in -5_000..=5_000 {
        sized((26_500 - correction) as u64, correction, 80, -500);
    }
}

/// "a half going up": to an even number and to an odd one; and next to a half.
#[test]
fn halves_go_up() {
    sized(25_500, 0, 77, -500);
    sized(24_500, 0, 74, -500);
    sized(26_499, 0, 79, 497);
    sized(26_501, 0, 80, -497);
}

/// Where 3·t/1,000 is whole there is no rest. The greatest is 499 and the least −500.
#[test]
fn every_kind_of_rest() {
    sized(20_000, 0, 60, 0);
    sized(20_000, 1, 60, 3);
    sized(20_000, -1, 60, -3);
    sized(25_833, 0, 77, 499);
    sized(25_834, 0, 78, -498);
    let rest = |t: u64| points(Measure::new(t, 0)).rest;
    let rests: std::collections::BTreeSet<i64> = (10_000..=40_000).map(rest).collect();
    assert!(rests.into_iter().eq(-500..=499));
}

/// t is 5,000 at least and 45,000 at most.
#[test]
fn the_ends_of_the_rules() {
    sized(10_000, -5_000, 15, 0);
    sized(10_000, 5_000, 45, 0);
    sized(40_000, -5_000, 105, 0);
    sized(40_000, 5_000, 135, 0);
    sized(10_000, -4_999, 15, 3);
    sized(40_000, 4_999, 135, -3);
}

/// "An unmeasured last has no size and no rest." That is no refusal.
#[test]
fn an_unmeasured_last_has_no_size() {
    let none = PointsReply::default();
    assert_eq!((none.refusal, none.measured), (0, false));
    assert_eq!(FORMS.map(|points| points(Measure::NONE)), [none; 2]);
}

/// "the rest, 3·t less 1,000 times the rounded size; it is from −500 to 499": only one
/// whole number leaves such a rest.
#[track_caller]
fn is_rounded(measure: Measure) {
    let three_t = 3 * (measure.length as i64 + i64::from(measure.correction));
    for points in FORMS {
        let reply = points(measure);
        assert_eq!((reply.refusal, reply.measured), (0, true));
        assert_eq!(1_000 * reply.half_points as i64 + reply.rest, three_t);
        assert!((-500..=499).contains(&reply.rest), "{measure:?} {reply:?}");
    }
}

#[test]
fn all_lengths() {
    for correction in [-5_000, -4_999, -1, 0, 1, 166, 4_999, 5_000] {
        (10_000..=40_000).for_each(|length| is_rounded(Measure::new(length, correction)));
    }
}

#[test]
fn all_corrections() {
    for length in [10_000, 10_001, 25_500, 26_500, 26_833, 39_999, 40_000] {
        (-5_000..=5_000).for_each(|correction| is_rounded(Measure::new(length, correction)));
    }
}

/// "Errors: the check is 12."
#[track_caller]
fn turned_down(measure: Measure) {
    let due = PointsReply {
        refusal: 12,
        ..Default::default()
    };
    assert_eq!(FORMS.map(|points| points(measure)), [due; 2], "{measure:?}");
}

#[test]
fn measures_outside_the_rules() {
    WRONG.into_iter().for_each(turned_down);
    for correction in [-5_000, 0, 5_000] {
        for length in [1, 9_999, 40_001, 1 << 32, (1 << 32) + 26_500, u64::MAX] {
            turned_down(Measure::new(length, correction));
        }
    }
    for correction in [i32::MIN, -5_001, 5_001, 65_536, i32::MAX] {
        for length in [0, 10_000, 26_500, 40_000] {
            turned_down(Measure::new(length, correction));
        }
    }
}

/// Any numbers: 12 for those outside the rules, and no other refusal.
#[test]
fn both_forms_agree_on_any_numbers() {
    let mut random = Random(71);
    for _ in 0..20_000 {
        let (length, correction) = (random.next() >> random.below(64), random.next() as i32);
        let measure = Measure::new(length, correction >> random.below(32));
        let [one, other] = FORMS.map(|points| points(measure));
        assert_eq!(one, other, "{measure:?}");
        assert_eq!(one.refusal, if measure.is_right() { 0 } else { 12 });
        let measure = random.any_measure();
        assert_eq!(points(measure), fast::points(measure), "{measure:?}");
    }
}
