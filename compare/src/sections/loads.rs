//! Loads: few operations from many seeds, every count in turn, the longest, and
//! a load against its set-up and operations made as calls.

use super::{exercise, Section};
use crate::call::Call;
use crate::case::{Case, Tally};
use crate::generator::BAD_ORDERS;
use crate::tables::{make_unsound, table_length};
use reference::load::{operations, Operation, NO_SALT};

pub const SECTION: Section = Section { name: "loads", run };

/// A load's keys are 512 at most: some tables are mostly full, some never.
const SLOTS: [usize; 5] = [1, 3, 100, 512, 4096];
const ORDERS: [u64; 3] = [3, 16, 255];
const MOST: u16 = u16::MAX;

/// Slots, order and seed of the longest loads. Each takes up to a second, so they are
/// few; from no seed in particular unless it is an end.
const LONGEST: [(usize, u64, u64); 7] = [
    (1, 3, 0),
    (3, 3, u64::MAX),
    (100, 16, 0),
    (340, 4, 0x5EED),
    (512, 255, 0x0DD5_EED5),
    (4096, 16, 0),
    (4096, 3, u64::MAX),
];

fn run(tally: &mut Tally) {
    for (slots, order, seed) in LONGEST {
        tally.case(|case| longest(case, slots, order, seed));
    }
    for slots in SLOTS {
        for order in ORDERS {
            tally.case(|case| short_loads(case, slots, order));
        }
        tally.case(|case| every_count(case, slots));
        tally.case(|case| over_other_words(case, slots));
        tally.case(|case| turned_down(case, slots));
        (0..3).for_each(|_| tally.case(|case| one_by_one(case, slots)));
    }
}

fn longest(case: &mut Case, slots: usize, order: u64, seed: u64) {
    exercise::lend_rubbish(case, slots);
    load(case, order, seed, MOST);
}

fn load(case: &mut Case, order: u64, seed: u64, count: u16) {
    case.refused(Call::Load { order, seed, count }, 0);
}

/// Few operations and some more, from the ends of the seeds and any; then the
/// calls that a user would make.
fn short_loads(case: &mut Case, slots: usize, order: u64) {
    for seed in [0, u64::MAX, 1 << 63, case.random.number()] {
        for count in [0, 1, 2, 255, 256, 257] {
            exercise::lend_rubbish(case, slots);
            load(case, order, seed, count);
        }
    }
    exercise::write(case);
    exercise::whole_range(case);
    exercise::look_up(case, &[1, 383, 512, 513]);
}

/// Each load has one operation more than the one before, whose table it is lent.
fn every_count(case: &mut Case, slots: usize) {
    exercise::lend_rubbish(case, slots);
    let (order, seed) = (case.random.order(), case.random.number());
    (0..60).for_each(|count| load(case, order, seed, count));
}

/// Whatever the words were: a full table, one of another order, of some salt, a damaged
/// one, all ones.
fn over_other_words(case: &mut Case, slots: usize) {
    let keys = case.random.keys(slots);
    for damaged in [false, true] {
        for order in [3, 200] {
            exercise::lend_keys(case, slots, order, &keys);
            if damaged {
                make_unsound(&mut case.table);
            }
            let (order, seed) = (case.random.order(), case.random.number());
            load(case, order, seed, 40);
        }
    }
    case.table.fill(u64::MAX);
    load(case, 9, 1, 40);
}

/// Orders and lengths that are none; the lower number is given, for any count.
fn turned_down(case: &mut Case, slots: usize) {
    for count in [0, 1, 2, MOST] {
        exercise::lend_rubbish(case, slots);
        let seed = case.random.number();
        for order in BAD_ORDERS {
            case.refused(Call::Load { order, seed, count }, 2);
        }
        for length in [0, 4, 11, 13, table_length(slots) - 1, 32_780] {
            case.table.resize(length, seed);
            for order in [3, 16, 255, 2, 256] {
                case.refused(Call::Load { order, seed, count }, 1);
            }
        }
    }
}

/// "In a history a load counts as its set-up and operations." "Loads use salt zero".
fn one_by_one(case: &mut Case, slots: usize) {
    exercise::lend_rubbish(case, slots);
    let (order, salt, seed) = (case.random.order(), NO_SALT, case.random.number());
    let count = case.random.below(300) as u16;
    case.refused(Call::SetUp { order, salt }, 0);
    for operation in operations(seed, count) {
        case.call(match operation {
            Operation::Insert(key) => Call::insert(key),
            Operation::Delete(key) => Call::Delete { key },
            Operation::LookUp(key) => Call::LookUp { key },
        });
    }
    let left = case.table.clone();
    exercise::lend_rubbish(case, slots);
    case.call_and_check(Call::Load { order, seed, count }, |outcome| {
        let same = outcome.table == left;
        (!same).then(|| "the calls one by one leave another table".to_string())
    });
}
