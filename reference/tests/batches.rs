//! Batches of lookups: example E, a batch against lookups made as calls, blocks
//! counted once, and refusals; by both forms.

mod common;

use common::Random;
use reference::batch::{BatchReply, Question};
use reference::blocks::blocks;
use reference::calls::{Index, REAL};
use reference::fast;
use reference::priority::priority;
use reference::table::{length_of_slots, shape_of, words};
use reference::Contents;
use std::collections::BTreeSet;

type Batch = fn(&[u64], &mut [Question]) -> BatchReply;

/// The batch of the literal calls and that of the fast form.
const FORMS: [Batch; 2] = [literal, fast::look_up_batch];

fn literal(table: &[u64], questions: &mut [Question]) -> BatchReply {
    REAL.look_up_batch(table, questions)
}

/// The questions for these keys, with something in the places to be filled in.
fn questions(keys: &[u64]) -> Vec<Question> {
    let question = |&key: &u64| Question {
        key,
        held: !key,
        rank: 1_000 + key % 7,
    };
    keys.iter().map(question).collect()
}

fn table_of(slots: usize, order: u64, keys: &[u64]) -> Vec<u64> {
    words(&priority, &Contents::unmeasured(order, keys), slots)
}

/// The table of an order and a set, whose measures are no matter to a batch.
fn table_for(slots: usize, contents: &Contents) -> Vec<u64> {
    words(&priority, contents, slots)
}

/// So many slots, an order and a set for them.
fn random_contents(random: &mut Random, most: u64) -> (usize, Contents) {
    let slots = 1 + random.below(most);
    let order = [3, 3, 4, 5, 16, 255][random.below(6) as usize];
    let keys = random.keys(slots);
    (slots as usize, random.contents(order, &keys))
}

/// Some of the held keys, of their neighbours and of any others, rising.
fn random_batch(random: &mut Random, held: &[u64]) -> Vec<u64> {
    let near = held
        .iter()
        .flat_map(|key| [key - 1, *key, key.saturating_add(1)]);
    let share = 1 + random.below(8);
    let mut batch: BTreeSet<u64> = near.filter(|_| random.below(share) == 0).collect();
    (0..random.below(4)).for_each(|_| _ = batch.insert(random.key(1_000)));
    batch.remove(&0);
    batch.into_iter().collect()
}

// ---------------------------------------------------------------------------
// Document 01's examples

/// The blocks that a batch of these keys meets where each listed key outranks
/// those after it.
fn met(falling: &[u64], batch: &[u64]) -> u64 {
    let place = |key| falling.iter().position(|&k| k == key).unwrap() as u64;
    let outranking = |key: u64| 1_000 - place(key);
    let index = Index {
        priority: &outranking,
    };
    let mut keys = falling.to_vec();
    keys.sort();
    let table = words(&outranking, &Contents::unmeasured(3, &keys), 9);
    let reply = index.look_up_batch(&table, &mut questions(batch));
    assert_eq!(reply.refusal, 0);
    reply.blocks
}

/// "Lookup of 7 or 8 meets three blocks, of 1 two": the root's and (2, 1); the
/// root's, (3, 2) and (5, 1).
#[test]
fn example_e() {
    let e = [2, 3, 4, 5, 6, 7, 1];
    for (batch, blocks) in [
        (&[7][..], 3),
        (&[8], 3),
        (&[1], 2),
        (&[7, 8], 3),
        (&[1, 7], 4),
        (&[1, 7, 8], 4),
        (&[2, 3], 1),
        (&[2, 4, 5], 2),
        (&[1, 2, 3, 4, 5, 6, 7], 4),
        (&[], 0),
    ] {
        assert_eq!(met(&e, batch), blocks, "{batch:?}");
    }
}

/// A has no block, F one, G three: (3, 2) has 3 and 4, (3, 1) has 1 and 2,
/// (4, 1) has 5 and 6.
#[test]
fn examples_a_f_and_g() {
    assert_eq!(met(&[], &[1, 2, u64::MAX]), 0);
    assert_eq!(met(&[3, 2, 4, 1, 5], &[1, 3, 9]), 1);
    let g = [3, 2, 4, 1, 5, 6];
    let lone = [(1, 2), (2, 2), (3, 1), (4, 1), (5, 2), (6, 2), (7, 2)];
    for (key, blocks) in lone {
        assert_eq!(met(&g, &[key]), blocks, "{key}");
    }
    assert_eq!(met(&g, &[1, 2]), 2);
    assert_eq!(met(&g, &[5, 6]), 2);
    assert_eq!(met(&g, &[1, 7]), 3);
}

// ---------------------------------------------------------------------------
// Against lookups

/// "Each line says what a lookup on its own says", and its key stays.
#[test]
fn each_line_is_a_lookup() {
    let mut random = Random(51);
    let mut lines = [0, 0];
    for _ in 0..300 {
        let (slots, contents) = random_contents(&mut random, 90);
        let table = table_for(slots, &contents);
        let keys = random_batch(&mut random, &contents.keys());
        for batch in FORMS {
            let mut asked = questions(&keys);
            assert_eq!(batch(&table, &mut asked).refusal, 0);
            assert!(asked.iter().map(|question| question.key).eq(keys.clone()));
            for question in asked {
                let alone = REAL.look_up(&table, question.key);
                assert_eq!(question.held, alone.held.into());
                assert_eq!(question.rank, alone.rank);
                lines[question.held as usize] += 1;
            }
        }
    }
    assert!(lines.iter().all(|&number| number > 1_000), "{lines:?}");
}

#[test]
fn a_batch_of_one_key_meets_what_a_lookup_meets() {
    let mut random = Random(52);
    for _ in 0..60 {
        let (slots, contents) = random_contents(&mut random, 90);
        let table = table_for(slots, &contents);
        for key in random_batch(&mut random, &contents.keys()) {
            let blocks = REAL.look_up(&table, key).blocks;
            for batch in FORMS {
                let reply = batch(&table, &mut questions(&[key]));
                assert_eq!(reply, BatchReply { refusal: 0, blocks });
            }
        }
    }
}

/// The blocks of which a lookup of the key compares a key, by their names.
fn names_met(contents: &Contents, key: u64) -> BTreeSet<(u64, u64)> {
    let shape = shape_of(&priority, contents);
    let path = shape.path(key);
    let is_met = |keys: &[u64]| keys.iter().any(|u| path.contains(u));
    let met = blocks(&shape).into_iter().filter(|b| is_met(&b.keys));
    met.map(|b| (b.leader, b.level)).collect()
}

/// "each block reckoned once": the union of what the keys meet one by one, often
/// fewer than these together.
#[test]
fn each_block_is_counted_once() {
    let mut random = Random(53);
    let mut shared = 0;
    for _ in 0..150 {
        let (slots, contents) = random_contents(&mut random, 80);
        let table = table_for(slots, &contents);
        let keys = random_batch(&mut random, &contents.keys());
        let each: Vec<_> = keys.iter().map(|&key| names_met(&contents, key)).collect();
        let together: BTreeSet<_> = each.iter().flatten().collect();
        let blocks = together.len() as u64;
        shared += (each.iter().map(BTreeSet::len).sum::<usize>() > together.len()) as u64;
        for batch in FORMS {
            let reply = batch(&table, &mut questions(&keys));
            assert_eq!(reply, BatchReply { refusal: 0, blocks });
        }
    }
    assert!(shared > 100, "{shared}");
}

/// All keys of a table meet all its blocks.
#[test]
fn all_keys_meet_all_blocks() {
    let mut random = Random(54);
    for most in [1, 3, 20, 64, 200] {
        for _ in 0..20 {
            let (slots, contents) = random_contents(&mut random, most);
            let all = blocks(&shape_of(&priority, &contents)).len() as u64;
            let table = table_for(slots, &contents);
            for batch in FORMS {
                let reply = batch(&table, &mut questions(&contents.keys()));
                assert_eq!(reply.blocks, all);
            }
        }
    }
}

#[test]
fn an_empty_batch_meets_nothing() {
    for keys in [&[][..], &[5], &[1, 2, 3, 4, 5, 6, 7]] {
        for batch in FORMS {
            let table = table_of(7, 3, keys);
            assert_eq!(batch(&table, &mut []), BatchReply::default());
        }
    }
}

/// More lines than any table has keys are no fault.
#[test]
fn a_batch_longer_than_any_table() {
    let keys: Vec<u64> = (1..=9_000).collect();
    let table = table_of(3, 3, &[2, 4_000, 8_999]);
    for batch in FORMS {
        let mut asked = questions(&keys);
        assert_eq!(batch(&table, &mut asked).refusal, 0);
        let held: Vec<u64> = asked
            .iter()
            .filter(|question| question.held == 1)
            .map(|question| question.key)
            .collect();
        assert_eq!(held, [2, 4_000, 8_999]);
        assert!(asked.iter().all(|question| question.held <= 1));
    }
}

// ---------------------------------------------------------------------------
// Both forms

#[test]
fn both_forms_agree_on_great_tables() {
    let mut random = Random(55);
    for (slots, number, order) in [(4096, 4096, 3), (4096, 4000, 16), (1000, 700, 255)] {
        let mut set = BTreeSet::new();
        while set.len() < number {
            set.insert(random.next().max(1));
        }
        let held: Vec<u64> = set.into_iter().collect();
        let table = table_of(slots, order, &held);
        for keys in [held.clone(), random_batch(&mut random, &held), vec![1]] {
            let (mut one, mut other) = (questions(&keys), questions(&keys));
            let reply = literal(&table, &mut one);
            assert_eq!(fast::look_up_batch(&table, &mut other), reply);
            assert_eq!(one, other);
        }
    }
}

// ---------------------------------------------------------------------------
// Refusals

/// "the checks are 1, 5, 7; a refusal fills in nothing"; the lowest is given.
#[test]
fn refusals_of_a_batch() {
    let sound = table_of(2, 3, &[4, 9]);
    let mut unsound = sound.clone();
    unsound[1] += 1;
    let short = sound[..sound.len() - 1].to_vec();
    let bad: [&[u64]; 8] = [
        &[0],
        &[0, 1],
        &[4, 4],
        &[9, 4],
        &[4, 0],
        &[1, 2, 2, 3],
        &[1, 2, 3, 0],
        &[u64::MAX, 1],
    ];
    let good: [&[u64]; 4] = [&[], &[4], &[1, 4, 9], &[u64::MAX]];
    for batch in FORMS {
        let refused = |table: &[u64], keys: &[u64], refusal: u64| {
            let mut asked = questions(keys);
            let reply = batch(table, &mut asked);
            assert_eq!(reply, BatchReply { refusal, blocks: 0 }, "{keys:?}");
            assert_eq!(asked, questions(keys));
        };
        for keys in bad {
            refused(&short, keys, 1);
            refused(&unsound, keys, 5);
            refused(&sound, keys, 5);
        }
        for keys in good {
            refused(&short, keys, 1);
            refused(&[], keys, 1);
            refused(&vec![0; length_of_slots(4097)], keys, 1);
            refused(&unsound, keys, 7);
            assert_eq!(batch(&sound, &mut questions(keys)).refusal, 0);
        }
    }
}
