//! Document 02, request N5: the size of a last in Paris points.

use crate::calls::*;
use crate::measure::Measure;
use std::cmp::Reverse;

/// "the last's size in half points" and "the signed rest". "An unmeasured last has
/// no size and no rest": then both are zero.
#[derive(Clone, Copy, Debug, Default, PartialEq, Eq)]
pub struct PointsReply {
    pub refusal: u64,
    pub measured: bool,
    pub half_points: u64,
    pub rest: i64,
}

pub(crate) fn pointed(outcome: Outcome<PointsReply>) -> PointsReply {
    outcome.unwrap_or_else(|refusal| PointsReply {
        refusal,
        ..Default::default()
    })
}

/// "Errors: the check is 12."
pub fn points(measure: Measure) -> PointsReply {
    pointed(try_points(measure))
}

fn try_points(measure: Measure) -> Outcome<PointsReply> {
    refuse_if(!measure.is_right(), MEASURE)?;
    if !measure.is_measured() {
        return Ok(PointsReply::default());
    }
    // "With t the length plus the correction"
    let t = i128::from(measure.length) + i128::from(measure.correction);
    let size = nearest(3 * t);
    Ok(PointsReply {
        refusal: 0,
        measured: true,
        half_points: size as u64,
        // "the signed rest, 3·t less 1,000 times the rounded size"
        rest: (3 * t - 1_000 * size) as i64,
    })
}

/// "3·t/1,000, rounded to the nearest whole half point, a half going up": of all
/// whole numbers up to the first that is above it, the nearest one; of two that are
/// as near, the greater.
fn nearest(thousandths: i128) -> i128 {
    let distance = |whole: i128| (thousandths - 1_000 * whole).abs();
    let wholes = 0..=thousandths / 1_000 + 1;
    let nearest = wholes.min_by_key(|&whole| (distance(whole), Reverse(whole)));
    nearest.expect("zero is one of them")
}
