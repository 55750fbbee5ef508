//! The library's calls on tables of the same keys without a salt and under one, which
//! should take as long.

use crate::case::{random, Case};
use crate::rows::{Lent, Row};
use crate::timing::{least, Candidate};

pub const NO_SALT: u64 = 0;
pub const SALT: u64 = 0x5EED_5EED_5EED_5EED;

/// The keys of the tables.
pub fn case() -> Case {
    random(4096, 4000)
}

/// The table without a salt and the one under it.
pub fn tables(case: &Case) -> [Lent<'_>; 2] {
    [NO_SALT, SALT].map(|salt| Lent::new(case, salt))
}

/// Each call with its least times in nanoseconds on either table.
pub fn times(tables: &[Lent; 2]) -> Vec<(String, [f64; 2])> {
    let [without, under] = tables;
    let rows = without.rows().into_iter().zip(under.rows());
    let times = |(one, other): (Row, Row)| (one.call.clone(), least([ours(one), ours(other)]));
    rows.map(times).collect()
}

/// The library's candidate of a row.
fn ours(row: Row<'_>) -> Candidate<'_> {
    let [ours, ..] = row.candidates;
    ours
}
