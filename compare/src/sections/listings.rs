//! Listings in which each number is found with one digit to four, at both ends
//! of every length; and fills where another rule than document 02's would print another
//! number.

use super::{exercise, Section};
use crate::call::Call;
use crate::case::{Case, Tally};
use crate::fill::missed_fill;
use crate::keys::{keys_at, Chain};
use crate::tables::{image_of, listing_length};
use reference::depths::{comb, full};
use reference::Contents;

pub const SECTION: Section = Section {
    name: "listings",
    run,
};

const EDGES: [usize; 12] = [1, 8, 9, 10, 11, 98, 99, 100, 101, 999, 1000, 1001];
const ORDERS: [u64; 7] = [3, 9, 10, 11, 99, 100, 255];

fn run(tally: &mut Tally) {
    for number in EDGES {
        for order in ORDERS {
            tally.case(|case| {
                let keys = case.random.keys(number);
                let contents = case.contents(order, &keys);
                exercise::list(case, &contents);
            });
        }
    }
    tally.case(many_blocks);
    tally.case(counts_and_blocks_of_a_chain);
    for (order, left, right) in [(6, 0, 0), (10, 0, 1), (60, 59, 58), (60, 59, 59)] {
        tally.case(|case| one_block(case, order, left, right));
    }
    for (order, levels) in FULL {
        tally.case(|case| {
            let salt = case.salt();
            each_fill(case, salt, &full_libraries(salt, order, levels));
        });
    }
    for comb in COMBS {
        tally.case(|case| {
            let salt = case.salt();
            each_fill(case, salt, &[comb_library(salt, comb)]);
        });
    }
}

/// A chain of order 3 has half as many blocks and levels as keys; the first
/// keys of a chain are one too.
fn many_blocks(case: &mut Case) {
    let salt = case.salt();
    let longest = Chain::Right.keys(salt, 2 * 1001 + 1);
    for blocks in EDGES {
        for number in 2 * blocks - 1..=2 * blocks + 1 {
            let contents = case.contents_under(salt, 3, &longest[..number]);
            case.refused(listing_of(&contents), 0);
        }
    }
}

/// In a chain the counts in a block go up to the order less one.
fn counts_and_blocks_of_a_chain(case: &mut Case) {
    let salt = case.salt();
    let keys = Chain::Left.keys(salt, 210);
    for order in [9, 10, 11, 99, 100, 101, 102, 200, 255] {
        let contents = case.contents_under(salt, order, &keys);
        case.refused(listing_of(&contents), 0);
    }
}

/// A root with so many keys on each side, all in one block: fill 9, 10, 99 and
/// 100.
fn one_block(case: &mut Case, order: u64, left: usize, right: usize) {
    let mut places: Vec<usize> = (1..=left).collect();
    places.push(0);
    places.extend(left + 1..=left + right);
    let salt = case.salt();
    let contents = case.contents_under(salt, order, &keys_at(salt, &places));
    exercise::list(case, &contents);
}

/// The listing into an output that is just long enough.
fn listing_of(contents: &Contents) -> Call {
    let (image, room) = (image_of(contents), listing_length(contents));
    Call::List { image, room }
}

// ---------------------------------------------------------------------------
// Fills of several blocks

/// An order and rising keys, with the fill that their listing must show.
struct Library {
    order: u64,
    keys: Vec<u64>,
    fill: u64,
}

/// The libraries under the salt that their keys were searched out for.
fn each_fill(case: &mut Case, salt: u64, libraries: &[Library]) {
    for Library { order, keys, fill } in libraries {
        let contents = case.contents_under(salt, *order, keys);
        let call = listing_of(&contents);
        case.call_and_check(call, |outcome| missed_fill(outcome, *fill));
    }
}

/// Orders, and the levels of full blocks below the root block: three blocks, some more,
/// and as many as 4,096 keys can fill.
const FULL: [(usize, usize); 23] = [
    (3, 1),
    (4, 1),
    (5, 1),
    (8, 1),
    (9, 1),
    (10, 1),
    (16, 1),
    (17, 1),
    (18, 1),
    (64, 1),
    (100, 1),
    (254, 1),
    (255, 1),
    (3, 2),
    (4, 2),
    (3, 4),
    (8, 3),
    (3, 9),
    (5, 8),
    (16, 6),
    (64, 4),
    (100, 3),
    (255, 2),
];

/// All blocks full; then one to four keys fewer, the last of those that lie deepest, which
/// leaves as many blocks: the fill is what is left of all the keys.
fn full_libraries(salt: u64, order: usize, levels: usize) -> Vec<Library> {
    let depths = full(order, levels);
    let keys = keys_at(salt, &depths);
    let library = |gone| {
        let left = without_deepest(&keys, &depths, gone);
        Library {
            order: order as u64,
            fill: 100 * left.len() as u64 / keys.len() as u64,
            keys: left,
        }
    };
    (0..=4).map(library).collect()
}

/// The keys without so many of those that lie deepest.
fn without_deepest(keys: &[u64], depths: &[usize], gone: usize) -> Vec<u64> {
    let mut places: Vec<usize> = (0..keys.len()).collect();
    places.sort_by_key(|&place| depths[place]);
    places.truncate(keys.len() - gone);
    places.sort_unstable();
    places.into_iter().map(|place| keys[place]).collect()
}

/// Order, teeth and fill of combs, many of whose blocks hold one key.
const COMBS: [(u64, usize, u64); 13] = [
    (3, 3, 46),
    (3, 9, 36),
    (4, 6, 27),
    (8, 8, 18),
    (7, 13, 17),
    (18, 15, 10),
    (20, 19, 9),
    (21, 18, 9),
    (31, 21, 9),
    (41, 38, 4),
    (53, 500, 1),
    (12, 2048, 8),
    (255, 2048, 0),
];

fn comb_library(salt: u64, (order, teeth, fill): (u64, usize, u64)) -> Library {
    let keys = keys_at(salt, &comb(teeth));
    Library { order, keys, fill }
}

#[cfg(test)]
mod tests {
    use super::*;
    use crate::tables::blocks_of;

    /// Libraries have as many blocks under one salt as under another.
    const SALT: u64 = 77;

    /// How full, by a rule, so many keys are in so many blocks of an order.
    type Rule = fn(u64, u64, u64) -> u64;

    fn room(order: u64, blocks: u64) -> u64 {
        (2 * order - 1) + (blocks - 1) * (2 * order - 2)
    }

    /// Rules that one might take for document 02's.
    const OTHER_RULES: [Rule; 6] = [
        |order, keys, blocks| 100 * keys / (blocks * (2 * order - 1)),
        |order, keys, blocks| 100 * keys / (blocks * (2 * order - 2)),
        |order, keys, blocks| 100 * keys / (room(order, blocks) + 2 * order - 2),
        |order, keys, blocks| 100 * keys / ((2 * order - 2) + (blocks - 1) * (2 * order - 1)),
        |order, keys, blocks| 101 * keys / room(order, blocks),
        |order, keys, blocks| 100 * keys % 65_536 / room(order, blocks),
    ];

    /// Such rules that differ by their rounding, which does not show at 100.
    const OTHER_ROUNDINGS: [Rule; 2] = [
        |order, keys, blocks| (100 * keys + room(order, blocks) - 1) / room(order, blocks),
        |order, keys, blocks| (200 * keys / room(order, blocks) + 1) / 2,
    ];

    /// Order, keys, blocks and fill of the libraries above.
    fn figures() -> Vec<(u64, u64, u64, u64)> {
        let full = FULL.iter().flat_map(|&(o, l)| full_libraries(SALT, o, l));
        let all = full.chain(COMBS.map(|comb| comb_library(SALT, comb)));
        let figures = |Library { order, keys, fill }: Library| {
            let blocks = blocks_of(&Contents::unmeasured(order, &keys).salted(SALT));
            (order, keys.len() as u64, blocks, fill)
        };
        all.map(figures).collect()
    }

    #[test]
    fn fills_are_by_the_rule_in_several_blocks() {
        for (order, keys, blocks, fill) in figures() {
            assert!(blocks > 1);
            assert_eq!(fill, 100 * keys / room(order, blocks), "{order} {keys}");
        }
    }

    #[test]
    fn every_other_rule_shows_with_one_digit_two_and_three() {
        let figures = figures();
        for fills in [0..10, 10..100, 100..101] {
            let shows = |rule: &Rule| {
                let mut told = figures.iter().filter(|figure| fills.contains(&figure.3));
                told.any(|&(order, keys, blocks, fill)| rule(order, keys, blocks) != fill)
            };
            assert!(OTHER_RULES.iter().all(shows), "{fills:?}");
            assert_eq!(OTHER_ROUNDINGS.iter().all(shows), fills.end <= 100);
        }
    }
}
