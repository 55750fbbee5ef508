//! Document 02's ceiling for lookups: its figures; every small treap within it, by the
//! literal form; random sets within it, chains that reach it and a table without keys,
//! by both forms.

mod common;

use common::{falling_priorities, permutations, rising_priorities, Random};
use reference::blocks::blocks_met;
use reference::calls::{LookUpReply, PlainReply, REAL};
use reference::ceiling::{blocks_ceiling, rank_ceiling};
use reference::depths::keys_at;
use reference::fast;
use reference::table::{length_of_slots, shape_of};
use reference::{Contents, MOST_SLOTS};
use std::collections::BTreeSet;

/// A table, and the lookup of the form that built it.
struct Library {
    table: Vec<u64>,
    look_up: fn(&[u64], u64) -> LookUpReply,
}

/// The table of an order, a salt and rising keys, in as many slots: by the literal calls
/// and by the fast form.
fn by_both_forms(order: u64, salt: u64, keys: &[u64]) -> [Library; 2] {
    let (lengths, corrections) = (vec![0; keys.len()], vec![0; keys.len()]);
    let (mut one, mut other) = (blank(keys.len()), blank(keys.len()));
    let replies = [
        REAL.build(&mut one, order, salt, keys, &lengths, &corrections),
        fast::build(&mut other, order, salt, keys, &lengths, &corrections),
    ];
    assert_eq!(replies, [PlainReply::default(); 2]);
    [
        Library {
            table: one,
            look_up: |table, key| REAL.look_up(table, key),
        },
        Library {
            table: other,
            look_up: fast::look_up,
        },
    ]
}

fn blank(keys: usize) -> Vec<u64> {
    vec![0; length_of_slots(keys.max(1))]
}

impl Library {
    fn look_up(&self, key: u64) -> LookUpReply {
        let reply = (self.look_up)(&self.table, key);
        assert_eq!(reply.refusal, 0);
        reply
    }

    fn blocks(&self, key: u64) -> u64 {
        self.look_up(key).blocks
    }

    /// The rank of the root, whose key is the table's third word.
    fn root_rank(&self) -> u64 {
        self.look_up(self.table[2]).rank
    }
}

// ---------------------------------------------------------------------------
// The figures

/// Orders and the ceilings of 4,096 keys.
const FULLEST: [(u64, u64); 4] = [(3, 2048), (16, 273), (64, 65), (255, 17)];

#[test]
fn the_ceilings_of_the_fullest_table() {
    for (order, most) in FULLEST {
        assert_eq!(rank_ceiling(order, 4096), most);
        assert_eq!(blocks_ceiling(order, 4096, most), most);
    }
}

/// Of one key, two, three and so on.
#[test]
fn the_ceilings_of_few_keys() {
    for (order, ceilings) in [
        (3, [0, 1, 1, 2, 2, 3, 3, 4, 4, 5, 5, 6, 6]),
        (4, [0, 1, 1, 1, 2, 2, 2, 3, 3, 3, 4, 4, 4]),
        (7, [0, 1, 1, 1, 1, 1, 1, 2, 2, 2, 2, 2, 2]),
    ] {
        for (keys, most) in (1..).zip(ceilings) {
            assert_eq!(rank_ceiling(order, keys), most, "{order} {keys}");
            assert_eq!(blocks_ceiling(order, keys, most), most.max(1));
        }
    }
}

/// A lone key has rank 0 and is one block; up to as many keys as the order, the rank is
/// 1; with one more it may be 2.
#[test]
fn the_ceilings_about_every_order() {
    for order in 3..=255 {
        assert_eq!(rank_ceiling(order, 1), 0);
        assert_eq!(blocks_ceiling(order, 1, 0), 1);
        assert!((2..=order).all(|keys| rank_ceiling(order, keys) == 1));
        assert!((order + 1..2 * order).all(|keys| rank_ceiling(order, keys) == 2));
        assert_eq!(rank_ceiling(order, 2 * order), 3);
    }
}

/// "rounded up": the least whole number that is not below (n − 1)/(α − 1).
#[test]
fn the_ceilings_are_rounded_up() {
    for order in 3..=255 {
        let not_below = |whole: u64, keys: u64| whole * (order - 1) >= keys - 1;
        for keys in 1..=MOST_SLOTS as u64 {
            let most = rank_ceiling(order, keys);
            assert!(not_below(most, keys), "{order} {keys}");
            assert!(most == 0 || !not_below(most - 1, keys), "{order} {keys}");
        }
    }
}

// ---------------------------------------------------------------------------
// Sets within it

/// The most blocks that a lookup may meet, with so many keys and a root of that rank.
/// "that many" is the ceiling of the rank; the rank itself, or one, is no more and holds
/// too.
#[track_caller]
fn most_blocks(order: u64, keys: u64, root_rank: u64) -> u64 {
    let ceiling = rank_ceiling(order, keys);
    assert!(root_rank <= ceiling, "{root_rank} > {ceiling}");
    let most = root_rank.max(1);
    assert!(most <= blocks_ceiling(order, keys, root_rank));
    most
}

/// Both forms stay within the ceilings; gives how many lookups meet the most blocks.
#[track_caller]
fn stays_within(order: u64, salt: u64, keys: &[u64], asked: &[u64]) -> usize {
    let mut reached = 0;
    for library in by_both_forms(order, salt, keys) {
        let most = most_blocks(order, keys.len() as u64, library.root_rank());
        for &key in asked {
            let blocks = library.blocks(key);
            assert!((1..=most).contains(&blocks), "{order} {key} {blocks}");
            reached += usize::from(blocks == most);
        }
    }
    reached
}

/// The keys, the numbers next to them, the least key and the greatest.
fn with_others(keys: &[u64]) -> Vec<u64> {
    let about = |&key: &u64| [key, key - 1, key.saturating_add(1)];
    let mut asked: BTreeSet<u64> = keys.iter().flat_map(about).collect();
    asked.extend([1, u64::MAX]);
    asked.into_iter().filter(|&key| key != 0).collect()
}

const ORDERS: [u64; 6] = [3, 4, 8, 16, 64, 255];

/// Random sets of up to so many keys and one more, every key looked up and others too.
fn random_sets(seed: u64, tries: u64, most: u64) {
    let mut random = Random(seed);
    for order in ORDERS {
        let mut reached = 0;
        for _ in 0..tries {
            let mut set = BTreeSet::from_iter(random.keys(most));
            set.insert(random.key(most));
            let keys: Vec<u64> = set.into_iter().collect();
            let salt = random.salt(&keys);
            reached += stays_within(order, salt, &keys, &with_others(&keys));
        }
        assert!(reached > 0, "{order}");
    }
}

#[test]
fn small_sets_stay_within() {
    random_sets(81, 60, 12);
}

#[test]
fn middling_sets_stay_within() {
    random_sets(82, 6, 63);
}

#[test]
fn large_sets_stay_within() {
    random_sets(83, 2, 600);
}

#[test]
fn the_fullest_tables_stay_within() {
    let mut random = Random(84);
    for order in ORDERS {
        let keys = random.most_keys();
        let some: Vec<u64> = keys.iter().copied().step_by(100).collect();
        stays_within(order, keys[0], &keys, &with_others(&some));
    }
}

/// Every treap of up to seven keys is within the ceilings, and some treap reaches each
/// of them. The priorities are written, so that the literal form alone can say.
#[test]
fn of_all_small_treaps_none_is_beyond_and_one_is_at_the_ceilings() {
    for (order, number) in (3..=5).flat_map(|order| (1..=7).map(move |n| (order, n))) {
        let keys: Vec<u64> = (1..=number).map(|i| 2 * i).collect();
        let contents = Contents::unmeasured(order, &keys);
        let (mut highest, mut met) = (0, 0);
        for priorities in permutations(&keys) {
            let written = |key: u64| priorities[key as usize / 2 - 1];
            let shape = shape_of(&written, &contents);
            let rank = shape.root_rank().expect("there are keys");
            let most = most_blocks(order, number, rank);
            let blocks = (1..=2 * number + 1).map(|key| blocks_met(&shape, key));
            let worst = blocks.max().expect("keys are asked for");
            assert!(worst <= most, "{priorities:?}");
            highest = highest.max(rank);
            met = met.max(worst);
        }
        assert_eq!(highest, rank_ceiling(order, number));
        assert_eq!(met, blocks_ceiling(order, number, highest));
    }
}

// ---------------------------------------------------------------------------
// Sets that reach it

/// By both forms the root has just the rank's ceiling, and the lookup of the deepest key
/// meets just the blocks' ceiling.
#[track_caller]
fn reaches(order: u64, salt: u64, keys: &[u64], deepest: u64) {
    let number = keys.len() as u64;
    for library in by_both_forms(order, salt, keys) {
        let rank = library.root_rank();
        assert_eq!(rank, rank_ceiling(order, number), "{order} {number}");
        let most = blocks_ceiling(order, number, rank);
        assert_eq!(library.blocks(deepest), most, "{order} {number}");
    }
}

/// The chains of these numbers of keys, of both kinds, reach the ceilings of the order.
#[track_caller]
fn chains_reach(order: u64, numbers: impl Iterator<Item = usize>) {
    let (falling, rising) = (falling_priorities(), rising_priorities());
    for number in numbers {
        reaches(order, 0, &falling[..number], falling[number - 1]);
        reaches(order, 0, &rising[..number], rising[0]);
    }
}

#[test]
fn chains_of_order_3_reach_it() {
    chains_reach(3, 1..=64);
}

#[test]
fn chains_of_order_8_reach_it() {
    chains_reach(8, 1..=64);
}

/// Where the ceilings go up: after every α − 1 keys.
#[test]
fn chains_of_other_orders_reach_it_where_it_goes_up() {
    for order in [4, 16, 64, 255] {
        let steps = (1..=3).map(|times| times * (order - 1));
        let about = steps.flat_map(|keys| keys..=keys + 2);
        chains_reach(order as u64, (1..=2).chain(about));
    }
}

#[test]
fn long_chains_reach_it() {
    for order in [3, 8, 16, 64, 255] {
        chains_reach(order, [1000, 1023, 4095, 4096].into_iter());
    }
}

/// Chains are other keys under another salt, and reach it all the same.
#[test]
fn chains_under_a_salt_reach_it() {
    for salt in [1, 1 << 63, u64::MAX, 0x5EED] {
        for order in [3, 8, 255] {
            for number in [1, 2, 3, 20, 255, 256] {
                let keys = keys_at(salt, &Vec::from_iter(0..number));
                reaches(order, salt, &keys, keys[number - 1]);
            }
        }
    }
}

#[test]
fn the_fullest_chains_reach_its_figures() {
    let keys = falling_priorities();
    for (order, most) in FULLEST {
        for library in by_both_forms(order, 0, &keys) {
            assert_eq!(library.root_rank(), most);
            assert_eq!(library.blocks(keys[4095]), most);
            assert_eq!(library.blocks(keys[4095] + 1), most);
            assert_eq!(library.blocks(keys[0]), 1);
        }
    }
}

// ---------------------------------------------------------------------------
// No keys

/// "An empty one meets none."
#[test]
fn an_empty_table_meets_none() {
    for order in [3, 4, 8, 255] {
        assert_eq!(blocks_ceiling(order, 0, 0), 0);
        for library in by_both_forms(order, order, &[]) {
            for key in [1, 2, 4096, u64::MAX] {
                assert_eq!(library.look_up(key), LookUpReply::default());
            }
        }
    }
}
