//! Document 02, request N1: the operations of a load, and the set that they
//! leave by the rules alone.

use crate::priority::next;
use std::collections::BTreeSet;
use std::iter::successors;

/// A load's keys are 1 to this.
pub const GREATEST_KEY: u64 = 512;

/// "Loads use salt zero" (N9).
pub const NO_SALT: u64 = 0;

/// One operation of a load, with its key.
#[derive(Clone, Copy, Debug, PartialEq, Eq)]
pub enum Operation {
    Insert(u64),
    Delete(u64),
    LookUp(u64),
}

/// "From a 64-bit seed s, each operation first sets s to 6364136223846793005·s
/// + 1442695040888963407, modulo 2^64." So the seed itself chooses nothing.
pub fn operations(seed: u64, count: u16) -> impl Iterator<Item = Operation> {
    let numbers = successors(Some(next(seed)), |&s| Some(next(s)));
    numbers.take(count.into()).map(operation)
}

/// "The key is floor(s / 2^32) mod 512, plus 1. The two highest bits of s
/// choose: 0 or 1 insert, 2 delete, 3 lookup."
fn operation(s: u64) -> Operation {
    let key = (s >> 32) % GREATEST_KEY + 1;
    match s >> 62 {
        0 | 1 => Operation::Insert(key),
        2 => Operation::Delete(key),
        _ => Operation::LookUp(key),
    }
}

/// "what these rules give without the treap": the keys that the operations
/// leave in a table of so many slots. "a refused one counts as done"
pub fn end_set(slots: usize, seed: u64, count: u16) -> BTreeSet<u64> {
    let mut set = BTreeSet::new();
    for operation in operations(seed, count) {
        match operation {
            // A held key stays as it is (8); a full table takes none (10).
            Operation::Insert(key) if set.len() < slots => _ = set.insert(key),
            // An absent key stays absent (9).
            Operation::Delete(key) => _ = set.remove(&key),
            Operation::Insert(_) | Operation::LookUp(_) => (),
        }
    }
    set
}
