//! Every set over a small universe of keys, for few slots and some orders, without a salt
//! and under some.

use super::{exercise, Section};
use crate::call::Call;
use crate::case::{Case, Tally};
use crate::keys::{parts, ties};

pub const SECTION: Section = Section {
    name: "universes",
    run,
};

const SLOTS: [usize; 4] = [1, 2, 3, 7];
const ORDERS: [u64; 4] = [3, 4, 5, 255];

/// Keys, and salts of which each case takes one.
struct Universe {
    keys: [u64; 5],
    salts: &'static [u64],
}

/// The first keys, of which one is a salt; and the ends of the range, of which one is the
/// salt, with a pair of equal priorities under it, which are exchanged without it.
fn universes() -> [Universe; 2] {
    let (a, b) = ties(u64::MAX)[0];
    [
        Universe {
            keys: [1, 2, 3, 4, 5],
            salts: &[0, 4, 1 << 63],
        },
        Universe {
            keys: [1, a, b, u64::MAX - 1, u64::MAX],
            salts: &[u64::MAX],
        },
    ]
}

fn run(tally: &mut Tally) {
    for universe in universes() {
        for slots in SLOTS {
            for order in ORDERS {
                for keys in parts(&universe.keys) {
                    tally.case(|case| built(case, slots, order, &keys, &universe));
                }
            }
            for keys in parts(&universe.keys) {
                tally.case(|case| inserted(case, slots, &keys, &universe));
                tally.case(|case| left_over(case, slots, &keys, &universe));
            }
        }
    }
}

/// The set built, and each key of the universe looked up in it.
fn built(case: &mut Case, slots: usize, order: u64, keys: &[u64], universe: &Universe) {
    let salt = case.random.pick(universe.salts);
    let contents = case.contents_under(salt, order, keys);
    exercise::everything(case, slots, &contents);
    if keys.len() <= slots {
        exercise::look_up(case, &universe.keys);
        exercise::look_up(case, &[6, u64::MAX - 2]);
    }
}

/// The set reached by inserts in some order, as far as there are slots.
fn inserted(case: &mut Case, slots: usize, keys: &[u64], universe: &Universe) {
    exercise::lend_rubbish(case, slots);
    let order = case.random.order();
    let salt = case.random.pick(universe.salts);
    case.refused(Call::SetUp { order, salt }, 0);
    let mut keys = keys.to_vec();
    case.random.shuffle(&mut keys);
    for (i, &key) in keys.iter().enumerate() {
        let refusal = if i < slots { 0 } else { 10 };
        exercise::insert(case, key, refusal);
    }
}

/// The set reached by deletes from the full one, if there are slots for it.
fn left_over(case: &mut Case, slots: usize, keys: &[u64], universe: &Universe) {
    if slots < universe.keys.len() {
        return;
    }
    let order = case.random.order();
    let salt = case.random.pick(universe.salts);
    let contents = case.contents_under(salt, order, &universe.keys);
    exercise::build(case, slots, &contents);
    let mut others = universe.keys.to_vec();
    others.retain(|key| !keys.contains(key));
    case.random.shuffle(&mut others);
    for key in others {
        case.refused(Call::Delete { key }, 0);
    }
}
