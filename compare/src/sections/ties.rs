//! Pairs of keys of equal priority under a salt, of which the lesser outranks the
//! greater and both have one home.

use super::{exercise, Section};
use crate::call::Call;
use crate::case::{Case, Tally};
use crate::keys::{tie_under, ties, Home};
use reference::priority::TIES;

pub const SECTION: Section = Section { name: "ties", run };

fn run(tally: &mut Tally) {
    for pair in all_pairs() {
        for slots in [2, 3, 7] {
            for others in [0, slots - 2] {
                tally.case(|case| one_pair(case, slots, pair, others));
            }
        }
    }
    for slots in [16, 64, 1000] {
        for _ in 0..10 {
            tally.case(|case| all_at_once(case, slots));
        }
    }
}

/// The known pairs without a salt, and those that come of exchanging the two keys' bytes
/// at one place, which leaves the priorities equal.
fn all_pairs() -> Vec<(u64, u64)> {
    let mut pairs = TIES.to_vec();
    for (a, b) in TIES {
        for byte in 0..8 {
            let exchanged = (a ^ b) & (0xFF << (8 * byte));
            pairs.push((a ^ exchanged, b ^ exchanged));
        }
    }
    pairs
}

fn one_pair(case: &mut Case, slots: usize, pair: (u64, u64), others: usize) {
    let salt = case.salt();
    let pair = tie_under(salt, pair);
    let [one, other] = [pair.0, pair.1].map(|key| Home::of(salt, key, slots));
    assert_eq!(one, other);
    let mut keys = vec![pair.0, pair.1];
    keys.extend(case.random.keys(others + 2));
    keys.truncate(2 + others);
    keys.sort_unstable();
    keys.dedup();
    let order = case.random.order();
    let contents = case.contents_under(salt, order, &keys);
    exercise::everything(case, slots, &contents);
    exercise::look_up(case, &keys);
    exercise::take_out_and_put_back(case, &[pair.0, pair.1]);
    exercise::take_out_and_put_back(case, &[pair.1, pair.0]);
}

/// All known pairs in one table, put in and taken out in any order.
fn all_at_once(case: &mut Case, slots: usize) {
    let salt = case.salt();
    let mut keys: Vec<u64> = ties(salt).iter().flat_map(|&(a, b)| [a, b]).collect();
    let order = case.random.order();
    let blank = case.contents_under(salt, order, &[]);
    case.lend(slots, &blank);
    case.random.shuffle(&mut keys);
    for &key in &keys {
        exercise::insert(case, key, 0);
    }
    exercise::look_up(case, &keys);
    case.random.shuffle(&mut keys);
    for &key in &keys {
        case.refused(Call::Delete { key }, 0);
    }
}
