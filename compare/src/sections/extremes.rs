//! The least key and the greatest: held, absent, at the ends of ranges and
//! under steps.

use super::{exercise, Section, SLOTS};
use crate::call::{Call, Place};
use crate::case::{Case, Tally};
use crate::keys::parts;

pub const SECTION: Section = Section {
    name: "extremes",
    run,
};

const ENDS: [u64; 4] = [1, 2, u64::MAX - 1, u64::MAX];
const BOUNDS: [u64; 6] = [0, 1, 2, u64::MAX - 2, u64::MAX - 1, u64::MAX];

fn run(tally: &mut Tally) {
    for slots in [4, 7, 64] {
        for ends in parts(&ENDS) {
            for others in [0, slots - 4] {
                tally.case(|case| at_the_ends(case, slots, &ends, others));
            }
        }
    }
    for slots in SLOTS.into_iter().filter(|&slots| slots >= 2) {
        tally.case(|case| both_ends(case, slots));
    }
}

fn at_the_ends(case: &mut Case, slots: usize, ends: &[u64], others: usize) {
    let between = (0..others as u64).map(|i| 3 + i * (u64::MAX / 100));
    let mut keys: Vec<u64> = ends.iter().copied().chain(between).collect();
    keys.sort_unstable();
    let order = case.random.order();
    let contents = case.contents(order, &keys);
    exercise::everything(case, slots, &contents);
    exercise::look_up(case, &ENDS);
    for low in BOUNDS {
        for high in BOUNDS {
            let room = keys.len();
            case.call(Call::Range { low, high, room });
            exercise::steps(case, Place::new(low, high), 3);
        }
    }
    exercise::take_out_and_put_back(case, ends);
}

/// The greatest key comes and goes under a place that is at it.
fn both_ends(case: &mut Case, slots: usize) {
    let order = case.random.order();
    let contents = case.contents(order, &[1, u64::MAX]);
    exercise::build(case, slots, &contents);
    let place = Place::new(u64::MAX, u64::MAX);
    exercise::steps(case, Place::WHOLE, 5);
    exercise::steps(case, place, 3);
    case.refused(Call::Delete { key: u64::MAX }, 0);
    exercise::steps(case, place, 3);
    exercise::insert(case, u64::MAX, 0);
    exercise::steps(case, place, 3);
    exercise::steps(case, Place::SPENT, 2);
    case.refused(Call::Delete { key: 1 }, 0);
    exercise::look_up(case, &[1, u64::MAX]);
    exercise::steps(case, Place::WHOLE, 5);
}
