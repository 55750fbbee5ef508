//! Document 02's fill: its figures; every small treap, random sets, chains and combs, whose
//! blocks hold no more keys than it says and which are listed with the fill that follows;
//! libraries whose blocks are all full. Listings are those of both forms, and of the
//! literal one where priorities are written.

mod common;

use common::{falling_priorities, permutations, rising_priorities, Random, SALTS};
use reference::blocks::fill;
use reference::calls::{LengthReply, REAL};
use reference::depths::{comb, full, keys_at};
use reference::fast;
use reference::image::image;
use reference::listing::listing;
use reference::priority::priority;
use reference::{Contents, MOST_SLOTS};

// ---------------------------------------------------------------------------
// Listings, read

/// What a listing says: the numbers of its first line, and its blocks.
struct Listing {
    order: u64,
    keys: u64,
    number_of_blocks: u64,
    fill: u64,
    root: u64,
    blocks: Vec<Block>,
}

/// A block's line, and the keys of the lines after it.
struct Block {
    leader: u64,
    level: u64,
    number_of_keys: u64,
    keys: Vec<u64>,
}

/// The numbers of a line: every second word, base sixteen where it is a key.
fn numbers(line: &str) -> Vec<u64> {
    let words = line.split(' ').skip(1).step_by(2);
    let base = |word: &str| if word.len() == 16 { 16 } else { 10 };
    let number = |word| u64::from_str_radix(word, base(word)).expect("a number");
    words.map(number).collect()
}

fn read(text: &str) -> Listing {
    let (header, lines) = text.split_once('\n').expect("a line");
    let header = numbers(header);
    let mut blocks: Vec<Block> = vec![];
    for line in lines.lines() {
        let said = numbers(line);
        if line.starts_with("key ") {
            blocks.last_mut().expect("a block").keys.push(said[0]);
        } else {
            blocks.push(Block {
                leader: said[0],
                level: said[1],
                number_of_keys: said[2],
                keys: vec![],
            });
        }
    }
    Listing {
        order: header[0],
        keys: header[1],
        number_of_blocks: header[2],
        fill: header[3],
        root: header[4],
        blocks,
    }
}

/// The call that lists an image.
type List = fn(&[u8], &mut [u8]) -> LengthReply;

/// An order and rising keys that lie so deep under the salt.
fn lying_at(order: u64, salt: u64, depths: &[usize]) -> Contents {
    Contents::unmeasured(order, &keys_at(salt, depths)).salted(salt)
}

/// The listings of an order and a set by the literal calls and by the fast form.
fn by_both_forms(contents: &Contents) -> [Listing; 2] {
    let bytes = image(&priority, contents);
    let forms: [List; 2] = [|bytes, output| REAL.list(bytes, output), fast::list];
    forms.map(|list| {
        let mut output = vec![0; 100 * (contents.set.len() + 1)];
        let reply = list(&bytes, &mut output);
        assert_eq!(reply.refusal, 0);
        output.truncate(reply.length as usize);
        read(&String::from_utf8(output).expect("a text"))
    })
}

// ---------------------------------------------------------------------------
// What must hold of each

impl Listing {
    /// The keys in each block, the root's first.
    fn held(&self) -> Vec<u64> {
        self.blocks.iter().map(|b| b.keys.len() as u64).collect()
    }

    #[track_caller]
    fn is_right(&self) {
        self.has_as_many_as_it_says();
        self.has_one_root_block();
        self.stays_within_the_ceilings();
        self.has_the_fill_of_the_rule();
    }

    #[track_caller]
    fn has_as_many_as_it_says(&self) {
        assert_eq!(self.number_of_blocks, self.blocks.len() as u64);
        assert_eq!(self.keys, self.held().iter().sum());
        let said: Vec<u64> = self.blocks.iter().map(|b| b.number_of_keys).collect();
        assert_eq!(said, self.held());
        assert_eq!(self.keys == 0, self.blocks.is_empty());
    }

    /// The root block is the first, has the root as its leader and holds it; no other
    /// has its level, and none is without a key.
    #[track_caller]
    fn has_one_root_block(&self) {
        let holds_root = |b: &Block| b.keys.contains(&self.root);
        for (i, block) in self.blocks.iter().enumerate() {
            assert_eq!(holds_root(block), i == 0);
            assert_eq!(block.level == self.blocks[0].level, i == 0);
            assert!(i > 0 || block.leader == self.root);
            assert!(!block.keys.is_empty());
        }
    }

    /// "Only the root block can reach 2α−1 keys; any other stops at 2α−2."
    #[track_caller]
    fn stays_within_the_ceilings(&self) {
        for (i, held) in self.held().into_iter().enumerate() {
            let most = if i == 0 {
                2 * self.order - 1
            } else {
                2 * self.order - 2
            };
            assert!(held <= most, "block {i}: {held}, and {most} is the ceiling");
        }
    }

    /// "Fill becomes 100·n / ((2α−1) + (b−1)·(2α−2)) rounded down, still 0 when empty."
    #[track_caller]
    fn has_the_fill_of_the_rule(&self) {
        let (order, n, b) = (self.order, self.keys, self.number_of_blocks);
        let due = match n {
            0 => 0,
            _ => 100 * n / ((2 * order - 1) + (b - 1) * (2 * order - 2)),
        };
        assert_eq!(self.fill, due, "order {order}, {n} keys in {b} blocks");
        assert!(self.fill <= 100);
    }
}

/// Both forms list the set rightly; gives how many keys the root block holds, and the
/// fullest of the others.
#[track_caller]
fn are_right(contents: &Contents) -> [u64; 2] {
    let [one, other] = by_both_forms(contents);
    one.is_right();
    other.is_right();
    assert_eq!(one.held(), other.held());
    match one.held()[..] {
        [] => [0, 0],
        [root, ref others @ ..] => [root, others.iter().copied().max().unwrap_or(0)],
    }
}

// ---------------------------------------------------------------------------
// The figures

/// The keys' places in the order of outranking, rising by key, and the fill of order 3:
/// document 01's examples A to H.
const EXAMPLES: [(&[usize], u64); 8] = [
    (&[], 0),
    (&[0], 20),
    (&[1, 0], 40),
    (&[0, 1, 2, 3], 44),
    (&[6, 0, 1, 2, 3, 4, 5], 41),
    (&[3, 1, 0, 2, 4], 100),
    (&[3, 1, 0, 2, 4, 5], 46),
    (&[0, 1], 40),
];

#[test]
fn both_forms_list_the_examples_with_their_fill() {
    for (places, due) in EXAMPLES {
        for salt in SALTS {
            let contents = lying_at(3, salt, places);
            are_right(&contents);
            for listing in by_both_forms(&contents) {
                assert_eq!(listing.fill, due, "{places:?}");
            }
        }
    }
}

/// Order, keys, blocks and fill: of one digit, two and three; full, with one key fewer,
/// and where the fill goes up.
const FIGURES: [(u64, u64, u64, u64); 18] = [
    (3, 5, 1, 100),
    (3, 9, 2, 100),
    (3, 8, 2, 88),
    (3, 13, 3, 100),
    (3, 12, 3, 92),
    (3, 4093, 1023, 100),
    (3, 4092, 1023, 99),
    (3, 4093, 1024, 99),
    (20, 38, 11, 9),
    (20, 37, 11, 8),
    (21, 36, 9, 9),
    (21, 37, 9, 10),
    (255, 5, 1, 0),
    (255, 6, 1, 1),
    (255, 509, 1, 100),
    (255, 508, 1, 99),
    (255, 1525, 3, 100),
    (255, 1524, 3, 99),
];

#[test]
fn figures() {
    for (order, keys, blocks, due) in FIGURES {
        assert_eq!(fill(order, keys, blocks), due, "{order} {keys} {blocks}");
    }
}

/// "rounded down": of all that the blocks can hold, so many hundredths are no more than
/// the keys, and one more hundredth is.
#[test]
fn it_is_rounded_down() {
    for order in 3..=255 {
        for blocks in [1, 2, 3, 4, 10, 100, 1000] {
            let room: u64 = 1 + blocks * (2 * order - 2);
            for keys in blocks..=room.min(MOST_SLOTS as u64) {
                let given = fill(order, keys, blocks);
                assert!(given * room <= 100 * keys, "{order} {keys} {blocks}");
                assert!((given + 1) * room > 100 * keys, "{order} {keys} {blocks}");
            }
        }
    }
}

#[test]
fn an_empty_library_has_none() {
    for order in 3..=255 {
        assert_eq!(fill(order, 0, 0), 0);
        assert_eq!(are_right(&Contents::unmeasured(order, &[])), [0, 0]);
    }
}

// ---------------------------------------------------------------------------
// Sets of every kind

/// Every treap of up to seven keys. Of order 3 both ceilings are reached.
#[test]
fn all_small_treaps() {
    for (order, reached) in [(3, [5, 4]), (4, [7, 5]), (5, [7, 5])] {
        let mut most = [0, 0];
        for number in 0..=7 {
            for places in permutations(&Vec::from_iter(0..number)) {
                let places: Vec<usize> = places.into_iter().map(|place| place as usize).collect();
                let held = are_right(&lying_at(order, number, &places));
                most = [most[0].max(held[0]), most[1].max(held[1])];
            }
        }
        assert_eq!(most, reached, "{order}");
    }
}

const ORDERS: [u64; 6] = [3, 4, 8, 16, 64, 255];

fn random_sets(seed: u64, tries: u64, most: u64) {
    let mut random = Random(seed);
    for order in ORDERS {
        for _ in 0..tries {
            let keys = random.keys(most);
            are_right(&random.contents(order, &keys));
        }
    }
}

#[test]
fn small_sets() {
    random_sets(91, 400, 12);
}

#[test]
fn middling_sets() {
    random_sets(92, 30, 64);
}

#[test]
fn large_sets() {
    random_sets(93, 4, 900);
}

#[test]
fn as_many_keys_as_any_table_has() {
    let mut random = Random(94);
    for order in ORDERS {
        let keys = random.most_keys();
        are_right(&random.contents(order, &keys));
    }
}

#[test]
fn chains() {
    for keys in [falling_priorities(), rising_priorities()] {
        for order in ORDERS {
            for number in (1..=64).chain([253, 254, 255, 256, 1000, MOST_SLOTS]) {
                are_right(&Contents::unmeasured(order, &keys[..number]));
            }
        }
    }
}

/// Fills of one digit, in many blocks.
#[test]
fn combs() {
    for teeth in (1..=40).chain([500, MOST_SLOTS / 2]) {
        let salt = teeth as u64;
        let keys = keys_at(salt, &comb(teeth));
        for order in [3, 8, 12, 20, 21, 64, 255] {
            are_right(&Contents::unmeasured(order, &keys).salted(salt));
        }
    }
}

// ---------------------------------------------------------------------------
// Full blocks

/// By any priority the listing is right, and has this many blocks, all of them full.
#[track_caller]
fn are_full(listing: &Listing, blocks: usize) {
    listing.is_right();
    let mut held = vec![2 * listing.order - 2; blocks];
    held[0] += 1;
    assert_eq!(listing.held(), held);
    assert_eq!(listing.fill, 100);
}

/// The root, one block on each side of it, two below each of these, and so on.
fn number_of_blocks(levels: usize) -> usize {
    (1 << (levels + 1)) - 1
}

/// Root 7, with 6 over 3 on its left and 8 over 11 on its right, each of these with two
/// keys on each of its sides.
#[test]
fn thirteen_keys_in_three_full_blocks() {
    let falling = [7, 6, 3, 2, 1, 4, 5, 8, 11, 10, 9, 12, 13];
    let place = |key| falling.iter().position(|&k| k == key).expect("a key");
    let written = |key| 100 - place(key) as u64;
    let contents = Contents::unmeasured(3, &Vec::from_iter(1..=13));
    let listed = read(&listing(&written, &contents));
    are_full(&listed, 3);
    let named = listed
        .blocks
        .iter()
        .map(|b| (b.leader, b.level, &b.keys[..]));
    let due: [(u64, u64, &[u64]); 3] = [
        (7, 2, &[3, 6, 7, 8, 11]),
        (3, 1, &[1, 2, 4, 5]),
        (11, 1, &[9, 10, 12, 13]),
    ];
    assert_eq!(named.collect::<Vec<_>>(), due);
}

/// Few enough keys for the definitions, under priorities that are written.
#[test]
fn full_blocks_by_definition() {
    for order in 3..=11 {
        for levels in 0.. {
            let depths = full(order, levels);
            let number = depths.len();
            if number > reference::LITERAL_LIMIT {
                break;
            }
            let written = |key| (number * (number - depths[key as usize - 1])) as u64 + key;
            let keys = Vec::from_iter(1..=number as u64);
            let contents = Contents::unmeasured(order as u64, &keys);
            let listed = read(&listing(&written, &contents));
            are_full(&listed, number_of_blocks(levels));
        }
    }
}

/// For each order the libraries of full blocks that a table can have: the number of
/// levels below the root block, and how deep the keys lie.
fn full_libraries(order: usize) -> impl Iterator<Item = (usize, Vec<usize>)> {
    let libraries = (0..).map(move |levels| (levels, full(order, levels)));
    libraries.take_while(|(_, depths)| depths.len() <= MOST_SLOTS)
}

#[test]
fn three_full_blocks_have_six_times_the_order_less_five_keys() {
    for order in 3..=255 {
        assert_eq!(full(order, 1).len(), 6 * order - 5);
    }
}

const FULL_ORDERS: [usize; 9] = [3, 4, 5, 8, 16, 64, 100, 254, 255];

#[test]
fn full_blocks_by_both_forms() {
    let mut tried = 0;
    for order in FULL_ORDERS {
        for (levels, depths) in full_libraries(order) {
            let contents = lying_at(order as u64, levels as u64, &depths);
            for listing in by_both_forms(&contents) {
                are_full(&listing, number_of_blocks(levels));
                tried += 1;
            }
        }
    }
    assert_eq!(tried, 2 * (10 + 9 + 9 + 8 + 7 + 5 + 4 + 3 + 3));
}

/// Without the first of the keys that lie deepest there are as many blocks, one of them
/// not full.
#[test]
fn one_key_fewer_than_full_is_less_than_a_hundred() {
    for order in FULL_ORDERS {
        for (levels, depths) in full_libraries(order) {
            let salt = levels as u64;
            let mut keys = keys_at(salt, &depths);
            let number = keys.len() as u64;
            let deepest = depths.iter().max();
            keys.remove(depths.iter().position(|d| Some(d) == deepest).unwrap());
            let contents = Contents::unmeasured(order as u64, &keys).salted(salt);
            for listing in by_both_forms(&contents) {
                listing.is_right();
                assert_eq!(listing.blocks.len(), number_of_blocks(levels));
                assert_eq!(listing.fill, 100 * (number - 1) / number);
            }
        }
    }
}
