//! The sizes of many lasts, a call for each. One call is too short to be timed alone.

use crate::agree::for_fast_form;
use crate::black_box::black_box;
use crate::candidates::{asking, expect};
use crate::measures::Measures;
use crate::timing::least;
use btreap::{Measure, Size};
use reference::{fast, measure};

/// How many lasts there are.
pub const LASTS: usize = 1_000;

/// Their measures; all of them are measured.
pub fn for_library() -> Vec<Measure> {
    Measures::of(LASTS, 1).iter().collect()
}

/// The same for the second program.
fn for_fast() -> Vec<measure::Measure> {
    for_library().into_iter().map(for_fast_form).collect()
}

/// The least times in nanoseconds of the library's calls and of (b), which the compiler
/// puts in line.
pub fn times() -> [f64; 2] {
    least([
        asking(for_library(), |measures, _| {
            look_at(black_box(measures).iter().map(|&m| by_library(m)))
        }),
        asking(for_fast(), |measures, _| {
            look_at(black_box(measures).iter().map(|&m| by_fast(m)))
        }),
    ])
}

/// Size and rest are looked at one by one: together they would be loaded as one value,
/// which has to wait for the two that the library has just stored.
fn look_at(sizes: impl Iterator<Item = Size>) {
    for size in sizes {
        black_box(size.half_points);
        black_box(size.rest);
    }
}

fn by_library(measure: Measure) -> Size {
    let size = btreap::points(measure).expect("the measure is right");
    size.expect("the last is measured")
}

fn by_fast(measure: measure::Measure) -> Size {
    let reply = fast::points(measure);
    expect(0, reply.refusal);
    assert!(reply.measured, "the last is measured");
    Size {
        half_points: reply.half_points,
        rest: reply.rest,
    }
}
