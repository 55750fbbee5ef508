//! A batch says of each key what a lookup says, counts each block once, and changes nothing when it is refused.

mod common;

use btreap::{Found, Question, Refusal};
use common::{table_of, unsound};

const SLOTS: usize = 64;

/// Questions for the keys, with something in the places that are to be filled in.
fn questions(keys: &[u64]) -> Vec<Question> {
    keys.iter().map(|&key| Question { key, held: key ^ 77, rank: !key }).collect()
}

/// What lookups say of the keys, one by one.
fn one_by_one(table: &[u64], keys: &[u64]) -> Vec<Question> {
    let ask = |&key: &u64| match btreap::look_up(table, key).unwrap() {
        Found::Held { rank, .. } => Question { key, held: 1, rank },
        Found::Absent { .. } => Question::new(key),
    };
    keys.iter().map(ask).collect()
}

fn blocks_of_lookup(table: &[u64], key: u64) -> u64 {
    match btreap::look_up(table, key).unwrap() {
        Found::Held { blocks, .. } | Found::Absent { blocks } => blocks,
    }
}

/// The blocks that a table's image has.
fn all_blocks(table: &[u64]) -> u64 {
    let mut image = vec![0; btreap::LONGEST_IMAGE];
    btreap::write(table, &mut image).unwrap();
    u16::from_le_bytes([image[5], image[6]]).into()
}

#[test]
fn a_batch_says_what_lookups_say() {
    let held: Vec<u64> = (1..=50).map(|i| i * i).chain([u64::MAX]).collect();
    let table = table_of(SLOTS, &held);
    let asked: Vec<u64> = (1..200).chain([2499, 2500, 2501, u64::MAX - 1, u64::MAX]).collect();
    let mut batch = questions(&asked);
    btreap::look_up_batch(&table, &mut batch).unwrap();
    assert_eq!(batch, one_by_one(&table, &asked));
    let held_ones = batch.iter().filter(|question| question.is_held());
    assert!(held_ones.map(|question| question.key).eq((1..=14).map(|i| i * i).chain([2500, u64::MAX])));
}

#[test]
fn a_batch_of_one_key_meets_what_its_lookup_meets() {
    let table = table_of(SLOTS, &(1..=60).collect::<Vec<_>>());
    for key in 1..=61 {
        let blocks = blocks_of_lookup(&table, key);
        assert_eq!(btreap::look_up_batch(&table, &mut questions(&[key])), Ok(blocks));
    }
}

/// All keys together meet every block of the table; one by one they meet some of them often.
#[test]
fn each_block_is_counted_once() {
    let keys: Vec<u64> = (1..=60).map(|i| 3 * i).collect();
    let table = table_of(SLOTS, &keys);
    let blocks = all_blocks(&table);
    assert!(blocks > 10);
    assert!(keys.iter().map(|&key| blocks_of_lookup(&table, key)).sum::<u64>() > 2 * blocks);
    assert_eq!(btreap::look_up_batch(&table, &mut questions(&keys)), Ok(blocks));
}

#[test]
fn an_empty_batch_and_an_empty_table_meet_no_block() {
    assert_eq!(btreap::look_up_batch(&table_of(SLOTS, &[5, 7]), &mut []), Ok(0));
    assert_eq!(btreap::look_up_batch(&table_of(SLOTS, &[]), &mut []), Ok(0));
    let mut batch = questions(&[1, 5, u64::MAX]);
    assert_eq!(btreap::look_up_batch(&table_of(SLOTS, &[]), &mut batch), Ok(0));
    assert_eq!(batch, [1, 5, u64::MAX].map(Question::new));
}

/// The batch is refused, and no question has changed.
#[track_caller]
fn refused(table: &[u64], keys: &[u64], refusal: Refusal) {
    let mut batch = questions(keys);
    assert_eq!(btreap::look_up_batch(table, &mut batch), Err(refusal), "{keys:?}");
    assert_eq!(batch, questions(keys));
}

#[test]
fn a_refused_batch_fills_in_nothing() {
    let table = table_of(SLOTS, &[5, 7]);
    let not_rising: [&[u64]; 7] = [&[0], &[0, 5], &[5, 5], &[7, 5], &[5, 0], &[1, 5, 7, 7], &[u64::MAX, 1]];
    for keys in not_rising {
        refused(&table[1..], keys, Refusal::WrongLength);
        refused(&unsound(SLOTS), keys, Refusal::NotRising);
        refused(&table, keys, Refusal::NotRising);
    }
    let rising: [&[u64]; 3] = [&[], &[5], &[1, 5, u64::MAX]];
    for keys in rising {
        refused(&table[1..], keys, Refusal::WrongLength);
        refused(&[], keys, Refusal::WrongLength);
        refused(&unsound(SLOTS), keys, Refusal::NotSound);
        assert!(btreap::look_up_batch(&table, &mut questions(keys)).is_ok());
    }
}
