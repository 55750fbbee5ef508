//! Loads: the generator by document 02's arithmetic, a load against its set-up
//! and operations made as calls, and refusals.

mod common;

use common::Random;
use reference::calls::{Index, PlainReply, REAL};
use reference::fast;
use reference::load::{end_set, operations, Operation};
use reference::priority::{E, TIES};
use reference::table::length_of_slots;

type Load = fn(&mut [u64], u64, u64, u16) -> PlainReply;

/// The load of the literal calls and that of the fast form.
const FORMS: [Load; 2] = [literal, fast::load];

fn literal(table: &mut [u64], order: u64, seed: u64, count: u16) -> PlainReply {
    REAL.load(table, order, seed, count)
}

/// The operations by the arithmetic of document 02, in numbers that have room
/// for the product.
fn by_arithmetic(seed: u64, count: usize) -> Vec<Operation> {
    let mut s = seed as u128;
    let mut operations = vec![];
    for _ in 0..count {
        s = (6364136223846793005 * s + 1442695040888963407) % (1 << 64);
        let key = (s / (1 << 32) % 512 + 1) as u64;
        operations.push(match s / (1 << 62) {
            0 | 1 => Operation::Insert(key),
            2 => Operation::Delete(key),
            _ => Operation::LookUp(key),
        });
    }
    operations
}

#[test]
fn operations_follow_their_rule() {
    let mut random = Random(41);
    for seed in [0, 1, u64::MAX, 1 << 63, random.next(), random.next()] {
        for count in [0, 1, 2, 1_000, u16::MAX] {
            let found: Vec<Operation> = operations(seed, count).collect();
            assert_eq!(found, by_arithmetic(seed, count.into()));
        }
    }
}

/// From seed 0 the numbers are the constants E, from the first one on.
#[test]
fn seed_zero_goes_through_the_constants() {
    let key = |s: u64| s / (1 << 32) % 512 + 1;
    let of_constants = E.iter().map(|&s| match s / (1 << 62) {
        0 | 1 => Operation::Insert(key(s)),
        2 => Operation::Delete(key(s)),
        _ => Operation::LookUp(key(s)),
    });
    assert!(operations(0, 2_048).eq(of_constants));
}

/// 1442695040888963407 is 0x14057B7EF767814F: highest bits 00, and 0x17E + 1 is
/// 383.
#[test]
fn the_first_operation_from_seed_zero() {
    let first: Vec<Operation> = operations(0, 1).collect();
    assert_eq!(first, [Operation::Insert(383)]);
    assert!(end_set(1, 0, 1).into_iter().eq([383]));
    assert!(end_set(1, 0, 0).is_empty());
}

/// "In a history a load counts as its set-up and operations."
/// "Loads use salt zero".
fn one_by_one(index: &Index, table: &mut [u64], order: u64, seed: u64, count: u16) -> [u64; 3] {
    let mut refused = [0; 3];
    assert_eq!(index.set_up(table, order, 0).refusal, 0);
    for operation in operations(seed, count) {
        let refusal = match operation {
            Operation::Insert(key) => index.insert_unmeasured(table, key).refusal,
            Operation::Delete(key) => index.delete(table, key).refusal,
            Operation::LookUp(key) => index.look_up(table, key).refusal,
        };
        match refusal {
            0 => (),
            8..=10 => refused[refusal as usize - 8] += 1,
            other => panic!("refusal {other}"),
        }
    }
    refused
}

/// Few different priorities, so that the tie rule and full clusters matter.
fn coarse(key: u64) -> u64 {
    Random(key).next() % 6 * 65_536
}

#[test]
fn a_load_is_its_set_up_and_operations() {
    let mut random = Random(42);
    let coarse = Index { priority: &coarse };
    let mut refused = [0; 3];
    for slots in [1, 2, 3, 7, 20, 64, 512] {
        for index in [REAL, coarse] {
            let (order, seed) = (3 + random.below(4), random.next());
            let count = random.below(300) as u16;
            let mut table = vec![random.next(); length_of_slots(slots)];
            let mut other = vec![random.next(); length_of_slots(slots)];
            let now = one_by_one(&index, &mut table, order, seed, count);
            (0..3).for_each(|i| refused[i] += now[i]);
            assert_eq!(index.load(&mut other, order, seed, count).refusal, 0);
            assert_eq!(other, table);
        }
    }
    assert!(refused.into_iter().all(|number| number > 5), "{refused:?}");
}

#[test]
fn a_load_is_a_build_of_the_end_set() {
    let mut random = Random(43);
    for slots in [1, 5, 100, 350, 512, 4096] {
        let (seed, count) = (random.next(), random.next() as u16);
        let mut loaded = vec![random.next(); length_of_slots(slots)];
        let mut built = loaded.clone();
        let keys: Vec<u64> = end_set(slots, seed, count).into_iter().collect();
        assert_eq!(REAL.load(&mut loaded, 7, seed, count).refusal, 0);
        assert_eq!(REAL.build_unmeasured(&mut built, 7, &keys).refusal, 0);
        assert_eq!(loaded, built);
        assert_eq!(fast::load(&mut loaded, 7, seed, count).refusal, 0);
        assert_eq!(loaded, built);
    }
}

/// The load of no operations leaves the blank table, over any words.
#[test]
fn a_load_of_nothing_is_a_set_up() {
    for load in FORMS {
        let mut table = vec![TIES[0].0; length_of_slots(2)];
        assert_eq!(load(&mut table, 255, 9, 0).refusal, 0);
        assert_eq!(table, [vec![255], vec![0; 19]].concat());
    }
}

/// "the checks are 1, 2"; a refusal changes nothing.
#[test]
fn refusals_of_a_load() {
    for load in FORMS {
        for (length, order, refusal) in [
            (12, 3, 0),
            (12, 255, 0),
            (32_772, 3, 0),
            (12, 2, 2),
            (12, 256, 2),
            (12, u64::MAX, 2),
            (0, 3, 1),
            (4, 3, 1),
            (11, 2, 1),
            (13, 256, 1),
            (32_780, 3, 1),
        ] {
            let mut table = vec![77; length];
            assert_eq!(load(&mut table, order, 5, 100).refusal, refusal);
            assert_eq!(refusal != 0, table == vec![77; length]);
        }
    }
}
