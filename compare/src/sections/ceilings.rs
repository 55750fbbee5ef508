//! Chains, which reach document 02's ceiling for lookups: the root has just the highest
//! rank that is promised, and the lookup of the deepest key meets just as many blocks.
//! That no lookup goes beyond is seen to with every lookup.

use super::{exercise, Section};
use crate::batches::with_neighbours;
use crate::call::Call;
use crate::case::{Case, Tally};
use crate::ceiling::missed;
use crate::keys::Chain;
use reference::ceiling::{blocks_ceiling, rank_ceiling};
use reference::MOST_SLOTS;

pub const SECTION: Section = Section {
    name: "ceilings",
    run,
};

/// Orders, each with the ceiling for 4,096 keys.
const FULLEST: [(u64, u64); 5] = [(3, 2048), (8, 585), (16, 273), (64, 65), (255, 17)];

fn run(tally: &mut Tally) {
    tally.case(no_keys);
    for chain in Chain::ALL {
        for order in [3, 8] {
            for number in 1..=40 {
                tally.case(|case| reached(case, chain, order, number));
            }
        }
        for order in [4, 16, 64, 255] {
            for number in about_steps(order) {
                tally.case(|case| reached(case, chain, order as u64, number));
            }
        }
        tally.case(|case| reached_when_full(case, chain));
    }
}

/// The last numbers of keys before the ceiling goes up, and the first ones after.
fn about_steps(order: usize) -> impl Iterator<Item = usize> {
    let steps = (0..=3).map(move |times| times * (order - 1) + 1);
    steps.flat_map(|keys| [keys, keys + 1])
}

/// "An empty one meets none."
fn no_keys(case: &mut Case) {
    for slots in [1, 7, MOST_SLOTS] {
        for (order, _) in FULLEST {
            let contents = case.contents(order, &[]);
            exercise::build(case, slots, &contents);
            for key in [1, 2, u64::MAX] {
                answers(case, key, "blocks", 0);
            }
        }
    }
}

fn reached(case: &mut Case, chain: Chain, order: u64, number: usize) {
    let salt = case.salt();
    let keys = chain.keys(salt, number);
    let slots = number + case.random.below(3);
    let contents = case.contents_under(salt, order, &keys);
    exercise::build(case, slots, &contents);
    let rank = rank_ceiling(order, number as u64);
    let blocks = blocks_ceiling(order, number as u64, rank);
    worst_lookups(case, chain, &keys, [rank, blocks]);
}

/// As many keys as any table has.
fn reached_when_full(case: &mut Case, chain: Chain) {
    let salt = case.salt();
    let keys = chain.keys(salt, MOST_SLOTS);
    for (order, most) in FULLEST {
        let contents = case.contents_under(salt, order, &keys);
        exercise::build(case, MOST_SLOTS, &contents);
        worst_lookups(case, chain, &keys, [most, most]);
    }
}

/// The root's rank is the one given, and so are the blocks met by lookups of the deepest
/// key and of the absent keys next to it, which are compared with all keys too.
fn worst_lookups(case: &mut Case, chain: Chain, keys: &[u64], [rank, blocks]: [u64; 2]) {
    let [root, deepest] = chain.ends(keys);
    answers(case, root, "rank", rank);
    let is_absent = |key: &u64| keys.binary_search(key).is_err();
    for key in with_neighbours(&[deepest]) {
        if key == deepest || is_absent(&key) {
            answers(case, key, "blocks", blocks);
        }
    }
}

/// The lookup is accepted, and has this number under the name.
fn answers(case: &mut Case, key: u64, name: &str, due: u64) {
    case.call_and_check(Call::LookUp { key }, |outcome| missed(outcome, name, due));
}
