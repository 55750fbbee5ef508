//! The wrapper says of each call what the library replies.

mod common;

use btreap::{Found, Measure, Place, Refusal};
use common::{table_of, unsound};
use std::collections::BTreeSet;

const SLOTS: usize = 3;

#[test]
fn each_refusal_has_its_number() {
    let mut table = table_of(SLOTS, &[5, 7]);
    let mut full = table_of(SLOTS, &[5, 7, 9]);
    let refused = [
        btreap::set_up(&mut table[1..], 3, 0).unwrap_err(),
        btreap::set_up(&mut table, 2, 0).unwrap_err(),
        btreap::insert(&mut table, 0).unwrap_err(),
        btreap::range(&table, 2, 1, &mut []).unwrap_err(),
        btreap::build(&mut table, 3, 0, &[7, 5]).unwrap_err(),
        btreap::read(&mut table, b"no image").unwrap_err(),
        btreap::look_up(&unsound(SLOTS), 5).unwrap_err(),
        btreap::insert(&mut table, 5).unwrap_err(),
        btreap::delete(&mut table, 6).unwrap_err(),
        btreap::insert(&mut full, 6).unwrap_err(),
        btreap::write(&table, &mut [0; 10]).unwrap_err(),
        btreap::insert_measured(&mut table, 6, Measure::new(9_999, 0)).unwrap_err(),
    ];
    let numbers: Vec<u64> = refused.iter().map(|refusal| refusal.number()).collect();
    assert_eq!(numbers, (1..=12).collect::<Vec<u64>>());
    assert_eq!(refused[4], Refusal::NotRising);
    assert_eq!(refused[10].to_string(), "the output is too short");
    assert_eq!(refused[11], Refusal::WrongMeasure);
    assert_eq!(table, table_of(SLOTS, &[5, 7]));
    assert_eq!(full, table_of(SLOTS, &[5, 7, 9]));
}

/// All keys of a table.
fn keys_of(table: &[u64]) -> Vec<u64> {
    let mut keys = vec![0; table.len()];
    let number = btreap::range(table, 0, u64::MAX, &mut keys).unwrap();
    keys.truncate(number);
    keys
}

/// What a load leaves in so many slots, reckoned without a table, in numbers that have room for the product.
fn keys_by_the_rules(slots: usize, seed: u64, count: u16) -> Vec<u64> {
    let (mut set, mut s) = (BTreeSet::new(), u128::from(seed));
    for _ in 0..count {
        s = (6364136223846793005 * s + 1442695040888963407) % (1 << 64);
        let key = (s / (1 << 32) % 512 + 1) as u64;
        match s / (1 << 62) {
            0 | 1 if set.len() < slots => _ = set.insert(key),
            2 => _ = set.remove(&key),
            _ => (),
        }
    }
    set.into_iter().collect()
}

/// From seed 0 the numbers begin 14057B7E.., 1A08EE11.., 9AF67822..: insert 17E + 1, insert 11 + 1, delete 22 + 1, hexadecimal.
#[test]
fn a_load_of_three_operations() {
    for (slots, keys) in [(1, vec![383]), (2, vec![18, 383]), (64, vec![18, 383])] {
        let mut table = vec![7; btreap::table_words(slots)];
        assert_eq!(btreap::load(&mut table, 3, 0, 3), Ok(()));
        assert_eq!(keys_of(&table), keys);
    }
}

#[test]
fn a_load_over_any_words_is_a_build_of_what_it_leaves() {
    for slots in [1, 7, 300, 600] {
        for (seed, count) in [(0, 1), (u64::MAX, 2), (2026, 100), (1 << 63, 5000)] {
            let mut loaded = vec![seed ^ 77; btreap::table_words(slots)];
            let mut built = vec![99; loaded.len()];
            btreap::load(&mut loaded, 5, seed, count).unwrap();
            btreap::build(&mut built, 5, 0, &keys_by_the_rules(slots, seed, count)).unwrap();
            assert_eq!(loaded, built);
        }
    }
}

#[test]
fn a_load_of_nothing_leaves_the_blank_table() {
    let (mut loaded, mut blank) = (table_of(SLOTS, &[5, 7]), unsound(SLOTS));
    btreap::load(&mut loaded, 255, 12345, 0).unwrap();
    btreap::set_up(&mut blank, 255, 0).unwrap();
    assert_eq!(loaded, blank);
}

#[test]
fn a_refused_load_leaves_the_words() {
    let mut table = unsound(SLOTS);
    for order in [0, 2, 256, u64::MAX] {
        assert_eq!(btreap::load(&mut table[1..], order, 1, 10), Err(Refusal::WrongLength));
        assert_eq!(btreap::load(&mut table, order, 1, 10), Err(Refusal::WrongOrder));
    }
    assert_eq!(btreap::load(&mut table[1..], 3, 1, 10), Err(Refusal::WrongLength));
    assert_eq!(btreap::load(&mut [], 3, 1, 0), Err(Refusal::WrongLength));
    assert_eq!(table, unsound(SLOTS));
}

#[test]
fn a_lookup_tells_held_from_absent() {
    let table = table_of(SLOTS, &[5]);
    let measure = Measure::NONE;
    assert_eq!(btreap::look_up(&table, 5), Ok(Found::Held { rank: 0, count: 1, leader: 0, blocks: 1, measure }));
    assert_eq!(btreap::look_up(&table, 6), Ok(Found::Absent { blocks: 1 }));
}

#[test]
fn a_range_is_at_the_start_of_the_output() {
    let mut out = [99; 4];
    assert_eq!(btreap::range(&table_of(SLOTS, &[5, 7, 9]), 6, 9, &mut out), Ok(2));
    assert_eq!(out, [7, 9, 99, 99]);
}

#[test]
fn steps_yield_the_range_and_then_end() {
    let table = table_of(SLOTS, &[5, 7, u64::MAX]);
    let mut place = Place::new(6, u64::MAX);
    assert_eq!(btreap::step(&table, &mut place), Ok(Some(7)));
    assert_eq!(place, Place::new(8, u64::MAX));
    assert_eq!(btreap::step(&table, &mut place), Ok(Some(u64::MAX)));
    assert_eq!(place, Place { next: 8, high: u64::MAX, done: true });
    assert_eq!(btreap::step(&table, &mut place), Ok(None));
}

#[test]
fn a_refused_step_leaves_its_place() {
    for place in [Place::ALL, Place::SPENT, Place::new(3, 9)] {
        let mut after = place;
        assert_eq!(btreap::step(&unsound(SLOTS), &mut after), Err(Refusal::NotSound));
        assert_eq!(after, place);
    }
}

#[test]
fn an_image_comes_back() {
    let table = table_of(SLOTS, &[5, 7]);
    let mut image = vec![0; btreap::LONGEST_IMAGE];
    let size = btreap::write(&table, &mut image).unwrap();
    let mut other = vec![7; btreap::table_words(SLOTS)];
    assert_eq!(btreap::read(&mut other, &image[..size]), Ok(()));
    assert_eq!(other, table);
    let mut text = vec![0; 10 * size];
    let length = btreap::list(&image[..size], &mut text).unwrap();
    assert!(text[..length].starts_with(b"order 3 keys 2 "));
}

#[test]
fn a_listing_tells_how_full_the_blocks_are() {
    // Keys whose priorities are as in document 01's examples B and G.
    let example_b: (&[u64], &str) = (&[5], "order 3 keys 1 blocks 1 fill 20 root 0000000000000005\n");
    let example_g: (&[u64], &str) = (&[1, 2, 5, 12, 19, 24], "order 3 keys 6 blocks 3 fill 46 root 0000000000000005\n");
    for (keys, first_line) in [example_b, example_g] {
        let mut image = vec![0; btreap::LONGEST_IMAGE];
        let size = btreap::write(&table_of(6, keys), &mut image).unwrap();
        let mut text = vec![0; 10 * size];
        let length = btreap::list(&image[..size], &mut text).unwrap();
        assert!(text[..length].starts_with(first_line.as_bytes()));
    }
}
