//! Treaps told by how deep each key lies, the keys rising and the root at 0; for the tests
//! and the comparison.

use crate::priority::{priority, salted};

/// Rising keys that lie so deep under the salt. The range of priorities is cut into a band
/// for each depth, and each key is the next whose priority is in its band; between two keys
/// of one depth there is always one of a lesser. Instead of depths, the keys' places in the
/// order of outranking will do.
pub fn keys_at(salt: u64, depths: &[usize]) -> Vec<u64> {
    let bands = depths.iter().max().map_or(1, |deepest| deepest + 1);
    let priority = salted(&priority, salt);
    let band = |key| ((u128::from(priority(key)) * bands as u128) >> 64) as usize;
    let mut later = 1..;
    let next_at = |&depth: &usize| later.find(|&key| band(key) == bands - 1 - depth);
    depths.iter().filter_map(next_at).collect()
}

/// A library whose blocks are all full: below the root block there are so many levels of
/// them, two blocks of the first and twice as many of each next.
pub fn full(order: usize, levels: usize) -> Vec<usize> {
    let side = full_side(order, levels, 0);
    [&side[..], &[0], &side].concat()
}

/// The keys on one side of a key: the α − 1 that a block has there, which are a chain; the
/// lowest has such sides of its own, which are a block of the next level.
fn full_side(order: usize, levels: usize, above: usize) -> Vec<usize> {
    let lowest = above + order - 1;
    let below = match levels {
        0 => vec![],
        _ => full_side(order, levels - 1, lowest),
    };
    let others: Vec<usize> = (above + 1..lowest).rev().collect();
    [&below[..], &[lowest], &below, &others].concat()
}

/// A comb: a chain down to the right, each key of which has one tooth on its left. Many
/// blocks hold one tooth alone, so that the fill is low.
pub fn comb(teeth: usize) -> Vec<usize> {
    (0..teeth).flat_map(|depth| [depth + 1, depth]).collect()
}
