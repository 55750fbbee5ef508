//! Sizes in Paris points: every length, every correction, what is next to the rules and
//! far outside them, and any numbers. No table is lent.

use super::Section;
use crate::archive::bits;
use crate::call::Call;
use crate::case::{Case, Tally};
use crate::measures::{any, CORNERS, WRONG};
use crate::outcome::Outcome;
use reference::measure::{
    Measure, GREATEST_CORRECTION, GREATEST_LENGTH, LEAST_CORRECTION, LEAST_LENGTH,
};

pub const SECTION: Section = Section {
    name: "points",
    run,
};

/// At each of them every length is tried.
const CORRECTIONS: [i32; 5] = [-5_000, -1, 0, 1, 5_000];

/// At each of them every correction is tried.
const LENGTHS: [u64; 7] = [10_000, 10_001, 25_500, 26_500, 26_833, 32_768, 40_000];

/// Lengths that no measure has: next to the rules, such that t alone would be right, and
/// such that would be right if they were cut to fewer bits or without a sign.
const WRONG_LENGTHS: [u64; 20] = [
    1,
    5_000,
    9_999,
    40_001,
    45_000,
    65_535,
    65_536,
    65_536 + 10_000,
    65_536 + 26_500,
    (1 << 31) + 26_500,
    (1 << 32) - 1,
    1 << 32,
    (1 << 32) + 1,
    (1 << 32) + 26_500,
    (1 << 63) - 1,
    1 << 63,
    (1 << 63) + 26_500,
    u64::MAX - 26_499,
    u64::MAX - 4_999,
    u64::MAX,
];

/// Corrections that no measure has.
const WRONG_CORRECTIONS: [i32; 13] = [
    i32::MIN,
    i32::MIN + 1,
    i32::MIN + 5_000,
    -65_536,
    -65_535,
    -10_000,
    -5_001,
    5_001,
    10_000,
    65_535,
    65_536,
    i32::MAX - 5_000,
    i32::MAX,
];

/// How many measures are drawn.
const DRAWN: usize = 4_000;

fn run(tally: &mut Tally) {
    for correction in CORRECTIONS {
        tally.case(|case| {
            let lengths = LEAST_LENGTH..=GREATEST_LENGTH;
            lengths.for_each(|length| rounded(case, length, correction));
        });
    }
    for length in LENGTHS {
        tally.case(|case| {
            let corrections = LEAST_CORRECTION..=GREATEST_CORRECTION;
            corrections.for_each(|correction| rounded(case, length, correction));
        });
    }
    tally.case(known);
    tally.case(turned_down);
    tally.case(drawn);
}

/// The rest is from −500 to 499, and 3·t less 1,000 times the size: for only one size
/// it is both.
fn rounded(case: &mut Case, length: u64, correction: i32) {
    let three_t = 3 * (i128::from(length) + i128::from(correction));
    let measure = Measure::new(length, correction);
    case.call_and_check(Call::Points { measure }, |outcome| {
        let [measured, half_points, rest] = numbers(outcome);
        let rest = rest as i64;
        let makes_up = 1_000 * i128::from(half_points) + i128::from(rest) == three_t;
        let is_right = measured == 1 && makes_up && (-500..=499).contains(&rest);
        (!is_right).then(|| format!("{half_points} half points, rest {rest}, for {three_t}"))
    });
}

fn numbers(outcome: &Outcome) -> [u64; 3] {
    [0, 1, 2].map(|i| outcome.reply.numbers[i].1)
}

/// Sizes reckoned by hand: document 02's, halves, the ends of the rules; and no size for
/// a last that is not measured.
fn known(case: &mut Case) {
    for (length, correction, half_points, rest) in [
        (26_500, 0, 80, -500),
        (31_500, -5_000, 80, -500),
        (25_500, 0, 77, -500),
        (25_833, 0, 77, 499),
        (26_833, 0, 80, 499),
        (20_000, 0, 60, 0),
        (10_000, -5_000, 15, 0),
        (10_000, 5_000, 45, 0),
        (40_000, -5_000, 105, 0),
        (40_000, 5_000, 135, 0),
    ] {
        let measure = Measure::new(length, correction);
        exactly(case, measure, [1, half_points, bits(rest)]);
    }
    exactly(case, Measure::NONE, [0, 0, 0]);
    for measure in CORNERS {
        case.refused(Call::Points { measure }, 0);
    }
}

fn exactly(case: &mut Case, measure: Measure, due: [u64; 3]) {
    case.call_and_check(Call::Points { measure }, |outcome| {
        let given = numbers(outcome);
        let is_given = outcome.reply.refusal == 0 && given == due;
        (!is_given).then(|| format!("{given:?}, not {due:?}"))
    });
}

/// A length or a correction outside the rules, or both; a correction left over where the
/// length is 0.
fn turned_down(case: &mut Case) {
    let refused = |case: &mut Case, length: u64, correction: i32| {
        let measure = Measure::new(length, correction);
        case.refused(Call::Points { measure }, 12);
    };
    for length in WRONG_LENGTHS {
        for correction in CORRECTIONS.into_iter().chain(WRONG_CORRECTIONS) {
            refused(case, length, correction);
        }
    }
    for correction in WRONG_CORRECTIONS {
        for length in LENGTHS.into_iter().chain([0]) {
            refused(case, length, correction);
        }
    }
    for correction in [-5_000, -4_999, -1, 1, 4_999, 5_000] {
        refused(case, 0, correction);
    }
    for measure in WRONG {
        refused(case, measure.length, measure.correction);
    }
}

/// Measures within the rules and outside, and any numbers of few bits and of many.
fn drawn(case: &mut Case) {
    for _ in 0..DRAWN {
        let measure = any(3, &mut case.random);
        case.call(Call::Points { measure });
        let (length, correction) = (case.random.number(), case.random.number() as i32);
        let (few, fewer) = (case.random.below(64), case.random.below(32));
        let measure = Measure::new(length >> few, correction >> fewer);
        case.call(Call::Points { measure });
    }
}
