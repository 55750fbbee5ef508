//! Batches of lookups: of every kind on tables of many shapes, against lookups
//! made as calls, with faults, and on damaged tables.

use super::{exercise, Section, SLOTS};
use crate::batches::{neighbours_only, random_batch, some_of, with_neighbours};
use crate::call::Call;
use crate::case::{Case, Tally};
use crate::keys::{keys_at, parts, permutations, Chain, Home};
use crate::outcome::Outcome;
use crate::tables::{blocks_of, is_measure_word, make_unsound, path_of, table_length};
use reference::table::SALT_WORD;
use reference::Contents;

pub const SECTION: Section = Section {
    name: "batches",
    run,
};

const ORDERS: [u64; 4] = [3, 4, 16, 255];

fn run(tally: &mut Tally) {
    tally.case(example_e);
    for slots in SLOTS {
        for order in ORDERS {
            tally.case(|case| random_table(case, slots, order));
        }
        (0..6).for_each(|_| tally.case(|case| one_by_one(case, slots)));
        tally.case(|case| turned_down(case, slots));
        tally.case(|case| damaged(case, slots));
    }
    for number in 0..=5 {
        for places in permutations(number) {
            tally.case(|case| every_batch(case, &places));
        }
    }
    chains(tally);
    for (slots, slot, number) in [(7, 6, 7), (64, 63, 64), (64, 0, 40), (4096, 4095, 3000)] {
        tally.case(|case| one_home(case, Home::new(slots, slot), number));
    }
    for number in [1, 2, 200, 255] {
        tally.case(|case| one_block(case, number));
    }
    tally.case(ends);
    tally.case(many_lines);
}

/// The batch is accepted, and the number of blocks is the one that is due.
fn meets(case: &mut Case, keys: &[u64], blocks: u64) {
    let keys = keys.to_vec();
    case.call_and_check(Call::LookUpBatch { keys }, |outcome| {
        let given = (outcome.reply.refusal, blocks_met(outcome));
        (given != (0, blocks)).then(|| format!("refusal and blocks {given:?}, not 0, {blocks}"))
    });
}

fn accepted(case: &mut Case, keys: Vec<u64>) {
    case.refused(Call::LookUpBatch { keys }, 0);
}

fn refused(case: &mut Case, keys: &[u64], refusal: u64) {
    let keys = keys.to_vec();
    case.refused(Call::LookUpBatch { keys }, refusal);
}

fn blocks_met(outcome: &Outcome) -> u64 {
    outcome.reply.numbers[0].1
}

// ---------------------------------------------------------------------------
// Accepted batches

/// "Lookup of 7 or 8 meets three blocks, of 1 two", in real keys that outrank
/// each other as there. Together they meet four.
fn example_e(case: &mut Case) {
    let salt = case.salt();
    let keys = keys_at(salt, &[6, 0, 1, 2, 3, 4, 5]);
    let (one, seven, eight) = (keys[0], keys[6], keys[6] + 1);
    let contents = case.contents_under(salt, 3, &keys);
    case.lend(9, &contents);
    meets(case, &[seven], 3);
    meets(case, &[eight], 3);
    meets(case, &[one], 2);
    meets(case, &[seven, eight], 3);
    meets(case, &[one, seven, eight], 4);
    meets(case, &keys, 4);
}

fn random_table(case: &mut Case, slots: usize, order: u64) {
    let number = case.random.fill(slots);
    let keys = case.random.keys(number);
    let contents = case.contents(order, &keys);
    each_kind(case, slots, &contents);
}

/// None, all, the next ones, the keys of whole paths, a few, one; all keys meet
/// all blocks.
fn each_kind(case: &mut Case, slots: usize, contents: &Contents) {
    let keys = &contents.keys()[..];
    case.lend(slots, contents);
    meets(case, &[], 0);
    meets(case, keys, blocks_of(contents));
    accepted(case, with_neighbours(keys));
    accepted(case, neighbours_only(keys));
    for &key in &some_of(keys, keys.len() / 4 + 1, &mut case.random) {
        accepted(case, path_of(contents, key));
        accepted(case, path_of(contents, key.saturating_add(1)));
        accepted(case, vec![key]);
    }
    for times in [2, 7, 30] {
        let some = some_of(keys, times, &mut case.random);
        accepted(case, some);
    }
    for _ in 0..8 {
        let batch = random_batch(keys, &mut case.random);
        accepted(case, batch);
    }
}

/// "Each line says what a lookup on its own says"; and the batch meets as many
/// blocks as some key does or more, and no more than all do one by one.
fn one_by_one(case: &mut Case, slots: usize) {
    let (order, number) = (case.random.order(), case.random.fill(slots));
    let held = case.random.keys(number);
    exercise::lend_keys(case, slots, order, &held);
    let mut keys = random_batch(&held, &mut case.random);
    keys.truncate(100);
    let look_up = |&key: &u64| case.refused(Call::LookUp { key }, 0).reply.numbers;
    let alone: Vec<_> = keys.iter().map(look_up).collect();
    let met = || alone.iter().map(|numbers| numbers[4].1);
    let (least, most) = (met().max().unwrap_or(0), met().sum());
    case.call_and_check(Call::LookUpBatch { keys }, |outcome| {
        let said = outcome.questions.iter().map(|q| [q.held, q.rank]);
        let same = said.eq(alone.iter().map(|numbers| [numbers[0].1, numbers[1].1]));
        let within = (least..=most).contains(&blocks_met(outcome));
        (!same || !within).then(|| "lookups one by one say otherwise".to_string())
    });
}

/// Every treap of up to five keys, under every batch of its keys and, up to
/// three, of these and those next to them.
fn every_batch(case: &mut Case, places: &[usize]) {
    let salt = case.salt();
    let keys = keys_at(salt, places);
    let mut asked = keys.clone();
    if keys.len() <= 3 {
        asked = with_neighbours(&keys);
    }
    for order in [3, 4] {
        let contents = case.contents_under(salt, order, &keys);
        case.lend(keys.len() + 1, &contents);
        for batch in parts(&asked) {
            accepted(case, batch);
        }
    }
}

fn chains(tally: &mut Tally) {
    for chain in Chain::ALL {
        for order in [3, 7, 255] {
            tally.case(|case| one_chain(case, chain, order, 24));
            tally.case(|case| one_chain(case, chain, order, 300));
        }
    }
    tally.case(|case| longest_chain(case, Chain::Right, 3));
    tally.case(|case| longest_chain(case, Chain::ToAndFro, 16));
}

fn one_chain(case: &mut Case, chain: Chain, order: u64, number: usize) {
    let salt = case.salt();
    let contents = case.contents_under(salt, order, &chain.keys(salt, number));
    each_kind(case, number + 1, &contents);
}

/// Its end and some of its keys; all paths of so long a chain would take long.
fn longest_chain(case: &mut Case, chain: Chain, order: u64) {
    let salt = case.salt();
    let keys = chain.keys(salt, 4095);
    let contents = case.contents_under(salt, order, &keys);
    case.lend(4096, &contents);
    let last = keys[4094];
    accepted(case, vec![last, last + 1]);
    accepted(case, keys[..40].to_vec());
    let some = some_of(&keys, 20, &mut case.random);
    accepted(case, some);
}

fn one_home(case: &mut Case, home: Home, number: usize) {
    let (order, salt) = (case.random.order(), case.salt());
    let contents = case.contents_under(salt, order, &home.keys(salt, 0, number));
    each_kind(case, home.slots, &contents);
}

/// As many keys as the order are one block at most, whatever is asked.
fn one_block(case: &mut Case, number: usize) {
    let keys = case.random.keys(number);
    exercise::lend_keys(case, number, 255, &keys);
    meets(case, &keys, 1);
    meets(case, &with_neighbours(&keys), 1);
    meets(case, &[u64::MAX], 1);
    meets(case, &[], 0);
}

/// The least keys and the greatest, held and asked for or not.
fn ends(case: &mut Case) {
    let ends = [1, 2, u64::MAX - 1, u64::MAX];
    for held in parts(&ends) {
        exercise::lend_keys(case, 4, 3, &held);
        for keys in parts(&ends) {
            accepted(case, keys);
        }
    }
}

/// Several thousand lines, held and not, on the greatest table and the least.
fn many_lines(case: &mut Case) {
    let lines: Vec<u64> = (1..=6_000).map(|i| 3 * i).collect();
    for order in [3, 255] {
        let held: Vec<u64> = (1..=4_096).map(|i| 4 * i).collect();
        exercise::lend_keys(case, 4096, order, &held);
        accepted(case, lines.clone());
        exercise::lend_keys(case, 1, order, &[9_000]);
        meets(case, &lines, 1);
        exercise::lend_keys(case, 1, order, &[]);
        meets(case, &lines, 0);
    }
}

// ---------------------------------------------------------------------------
// Refusals

/// Batches that do not rise strictly or have a zero.
const BAD: [&[u64]; 11] = [
    &[0],
    &[0, 0],
    &[0, 1, 2],
    &[5, 0],
    &[1, 2, 0, 3],
    &[7, 7],
    &[1, 2, 3, 3],
    &[2, 1],
    &[1, 3, 2, 4],
    &[1, 2, 4, 3],
    &[u64::MAX, 1],
];

const GOOD: [&[u64]; 4] = [&[], &[7], &[1, 2, 3], &[u64::MAX]];

/// 1 comes before 5 and 5 before 7; a refusal fills in nothing, which is seen to
/// with every refusal.
fn turned_down(case: &mut Case, slots: usize) {
    let number = case.random.fill(slots);
    let (order, keys) = (case.random.order(), case.random.keys(number));
    exercise::lend_keys(case, slots, order, &keys);
    let sound = case.table.clone();
    let mut unsound = sound.clone();
    make_unsound(&mut unsound);
    let all = [BAD.to_vec(), GOOD.to_vec()].concat();
    for length in [0, 4, 11, 13, table_length(slots) - 1, 32_780] {
        case.table = sound.clone();
        case.table.resize(length, 1);
        all.iter().for_each(|batch| refused(case, batch, 1));
    }
    for (table, refusal) in [(sound, 0), (unsound, 7)] {
        case.table = table;
        BAD.iter().for_each(|batch| refused(case, batch, 5));
        GOOD.iter().for_each(|batch| refused(case, batch, refusal));
        refused(case, &with_neighbours(&keys), refusal);
    }
}

/// Rubbish, a blank table of no order, and a sound one with a word changed.
fn damaged(case: &mut Case, slots: usize) {
    let number = case.random.fill(slots);
    let (order, keys) = (case.random.order(), case.random.keys(number));
    exercise::lend_keys(case, slots, order, &keys);
    let table = case.table.clone();
    // With another order or salt a table of few keys may be sound as well; so may it with
    // another measure.
    let is_sure = |word: &usize| *word != SALT_WORD && !is_measure_word(*word);
    let words: Vec<usize> = (1..table.len()).filter(is_sure).collect();
    for _ in 0..10 {
        let word = case.random.pick(&words);
        let batch = random_batch(&keys, &mut case.random);
        case.table.clone_from(&table);
        case.table[word] ^= 1 << case.random.below(64);
        refused(case, &batch, 7);
    }
    exercise::lend_rubbish(case, slots);
    refused(case, &keys, 7);
    case.table.fill(0);
    refused(case, &keys, 7);
}
