//! A load of as many operations as there can be, and what it is compared with.
//! A job takes up to seconds, so that it is done once in each of a few rounds.

use crate::black_box::black_box;
use crate::candidates::{asking, expect, over, refusal};
use crate::case::ORDER;
use crate::plain::{Plain, Set};
use crate::timing::least_of_rounds;
use btreap::Measure;
use reference::fast;
use reference::load::{operations, Operation, NO_SALT};

pub const SLOTS: usize = 4096;
pub const COUNT: u16 = u16::MAX;
pub const SEED: u64 = 1;

pub const ROUNDS: usize = 3;

/// The least times in nanoseconds of the library's load, as many separate calls
/// of the library, (b) the fast form's load, and (c) a set that is changed by the
/// same operations, then serialised whole and compared with a stored copy.
pub fn times() -> [f64; 4] {
    let table = words();
    let left = by_set(COUNT);
    least_of_rounds(
        [
            over(&table, |t, _| by_library(t, COUNT)),
            over(&table, |t, _| by_separate_calls(t, COUNT)),
            over(&table, |t, _| {
                expect(0, fast::load(t, ORDER, SEED, COUNT).refusal)
            }),
            asking(Plain::new(left), |plain, _| {
                plain.set = by_set(COUNT);
                assert!(plain.agrees());
            }),
        ],
        ROUNDS,
    )
}

/// The words that a load is lent, no table's.
pub fn words() -> Vec<u64> {
    vec![!0; btreap::table_words(SLOTS)]
}

pub fn by_library(table: &mut [u64], count: u16) {
    expect(
        0,
        refusal(btreap::load(table, ORDER, black_box(SEED), count)),
    );
}

/// A set-up, then a call for each operation, whatever it replies.
pub fn by_separate_calls(table: &mut [u64], count: u16) {
    expect(0, refusal(btreap::set_up(table, ORDER, NO_SALT)));
    for operation in operations(black_box(SEED), count) {
        match operation {
            Operation::Insert(key) => _ = black_box(btreap::insert(table, key)),
            Operation::Delete(key) => _ = black_box(btreap::delete(table, key)),
            Operation::LookUp(key) => _ = black_box(btreap::look_up(table, key)),
        }
    }
}

/// The set that the operations leave, of as many keys as the table has slots at
/// most, none of them measured.
pub fn by_set(count: u16) -> Set {
    let mut set = Set::new();
    for operation in operations(black_box(SEED), count) {
        match operation {
            Operation::Insert(key) if set.len() < SLOTS => {
                _ = black_box(set.entry(key).or_insert(Measure::NONE))
            }
            Operation::Insert(_) => (),
            Operation::Delete(key) => _ = black_box(set.remove(&key)),
            Operation::LookUp(key) => _ = black_box(set.get(&key)),
        }
    }
    set
}
