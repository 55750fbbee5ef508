//! Keys that lie close together or far apart, and blocks of many keys or few.
//! Where a program sorts by the highest bits first and goes another way if that
//! does not do, this is where it might go wrong.

use super::{exercise, Section};
use crate::call::Call;
use crate::case::{Case, Tally};
use crate::tables::{keys_in, slot_start};

pub const SECTION: Section = Section { name: "sorts", run };

fn run(tally: &mut Tally) {
    for (runs, length) in [(40, 100), (2, 2048), (64, 64), (13, 5), (5, 13), (2, 33)] {
        tally.case(|case| clusters(case, runs, length));
    }
    for number in [64, 65, 66, 300, 4096] {
        tally.case(|case| spread(case, number, 0));
        tally.case(|case| spread(case, number, 20));
        tally.case(|case| spread(case, number, 51));
        tally.case(|case| all_but_one(case, number));
    }
    for (number, order) in [(4096, 255), (4096, 128), (1000, 255), (300, 255), (4096, 3)] {
        tally.case(|case| blocks(case, number, order));
    }
    for number in [2, 40, 64, 65, 300, 1000] {
        tally.case(|case| twice(case, number));
    }
}

/// Runs of neighbours at random places: most keys differ in their lowest bits
/// alone.
fn clusters(case: &mut Case, runs: usize, length: usize) {
    let starts = (0..runs).map(|_| case.random.number() >> 1 | 1 << 32);
    let mut keys: Vec<u64> = starts
        .flat_map(|start| (0..length as u64).map(move |i| start + i))
        .collect();
    keys.sort_unstable();
    keys.dedup();
    each(case, &keys);
}

/// Keys at equal distances of a power of two, from the first on: they differ in
/// twelve bits, the lowest, the highest or others.
fn spread(case: &mut Case, number: usize, power: u32) {
    let keys: Vec<u64> = (1..=number as u64).map(|i| i << power).collect();
    each(case, &keys);
}

/// Neighbours, and one key far from them: in the highest bits they are equal.
fn all_but_one(case: &mut Case, number: usize) {
    let mut keys: Vec<u64> = (1..number as u64).collect();
    keys.push(u64::MAX);
    each(case, &keys);
}

/// Random keys of an order: of a great one a few blocks hold them all, of a
/// small one each holds few.
fn blocks(case: &mut Case, number: usize, order: u64) {
    let keys = case.random.keys(number);
    let contents = case.contents(order, &keys);
    exercise::build(case, number, &contents);
    exercise::write(case);
    exercise::read(case, number, &contents);
    exercise::list(case, &contents);
}

/// A table in which the key of one slot stands in another too.
fn twice(case: &mut Case, number: usize) {
    let keys = case.random.keys(number);
    let order = case.random.order();
    exercise::lend_keys(case, number, order, &keys);
    let (one, other) = (case.random.below(number / 2), number - 1);
    case.table[slot_start(one)] = case.table[slot_start(other)];
    case.refused(Call::LookUp { key: keys[0] }, 7);
    case.refused(Call::Delete { key: keys[1] }, 7);
}

/// Calls of each kind but steps and batches, on a table that is full.
fn each(case: &mut Case, keys: &[u64]) {
    let (slots, order) = (keys.len(), case.random.order());
    let contents = case.contents(order, keys);
    exercise::build(case, slots, &contents);
    exercise::write(case);
    exercise::whole_range(case);
    let some = [keys[0], case.random.pick(keys), keys[slots - 1]];
    exercise::look_up(case, &some);
    exercise::take_out_and_put_back(case, &some);
    exercise::read(case, slots, &contents);
    exercise::list(case, &contents);
    assert_eq!(keys_in(&case.table), keys);
}
