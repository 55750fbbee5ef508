//! Random sets: at few slots with every order, at many with some.

use super::{exercise, Section, SLOTS};
use crate::batches::random_batch;
use crate::call::{Call, Place};
use crate::case::{Case, Tally};
use crate::generator::room;
use crate::measures;

pub const SECTION: Section = Section { name: "sets", run };

/// How far apart the orders are that are tried at so many slots.
fn stride(slots: usize) -> usize {
    match slots {
        0..=64 => 1,
        65..=1000 => 9,
        _ => 36,
    }
}

fn run(tally: &mut Tally) {
    for slots in SLOTS {
        for order in (3..=255).step_by(stride(slots)) {
            tally.case(|case| {
                let number = case.random.fill(slots);
                let keys = case.random.keys(number);
                let contents = case.contents(order, &keys);
                exercise::build(case, slots, &contents);
                exercise::write(case);
                exercise::pages(case);
                exercise::read(case, slots, &contents);
                exercise::list(case, &contents);
                questions(case, &keys);
                changes(case, slots, &keys);
            });
        }
    }
}

/// Look-ups, batches, ranges and steps with held keys and others.
fn questions(case: &mut Case, keys: &[u64]) {
    for _ in 0..3 {
        let batch = random_batch(keys, &mut case.random);
        case.refused(Call::LookUpBatch { keys: batch }, 0);
        let key = case.random.key(2 * keys.len() + 3);
        case.call(Call::LookUp { key });
        if !keys.is_empty() {
            let (key, high) = (case.random.pick(keys), case.random.pick(keys));
            case.call(Call::LookUp { key });
            range(case, key.min(high), key.max(high), keys);
            exercise::steps(case, Place::new(key, high), 3);
        }
    }
}

fn range(case: &mut Case, low: u64, high: u64, keys: &[u64]) {
    let within = keys.iter().filter(|key| (low..=high).contains(key));
    let room = room(within.count(), &mut case.random);
    case.call(Call::Range { low, high, room });
}

/// Some inserts and deletes, among them refused ones.
fn changes(case: &mut Case, slots: usize, keys: &[u64]) {
    for _ in 0..2 {
        let key = case.random.key(2 * slots + 3);
        let measure = measures::any(10, &mut case.random);
        case.call(Call::Insert { key, measure });
        case.call(Call::Delete { key });
        if !keys.is_empty() {
            let key = case.random.pick(keys);
            case.call(Call::Delete { key });
        }
    }
}
