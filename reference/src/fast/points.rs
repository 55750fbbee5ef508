//! The size of a last in Paris points.

use crate::calls::*;
use crate::measure::*;
use crate::points::PointsReply;

/// What is said of a last, or refusal 12. Most lasts are measured ones, which are
/// judged by one test.
#[inline(always)]
pub fn size(measure: Measure) -> Outcome<PointsReply> {
    let Measure { length, correction } = measure;
    let is_length = (LEAST_LENGTH..=GREATEST_LENGTH).contains(&length);
    let is_correction = (LEAST_CORRECTION..=GREATEST_CORRECTION).contains(&correction);
    if !(is_length & is_correction) {
        refuse_if(measure != Measure::NONE, MEASURE)?;
        return Ok(PointsReply::default());
    }
    let thousandths = 3 * (length as i32 + correction);
    let half_points = nearest(thousandths as u32);
    Ok(PointsReply {
        refusal: 0,
        measured: true,
        half_points: half_points.into(),
        rest: i64::from(thousandths) - 1_000 * i64::from(half_points),
    })
}

/// So many thousandths to the nearest whole number, a half going up.
#[inline(always)]
pub fn nearest(thousandths: u32) -> u32 {
    (thousandths + 500) / 1_000
}
