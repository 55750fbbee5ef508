//! Tables and images that would be right if some rule were another one.

use super::{damaged_images, damaged_tables, Section};
use crate::case::{Case, Tally};
use crate::keys::{parts, ties};
use crate::salts;
use crate::tables::{image_of, slots_of, sound_table};
use reference::priority::{priority, Priority};
use reference::{image, table, Contents};

pub const SECTION: Section = Section {
    name: "forged",
    run,
};

fn run(tally: &mut Tally) {
    for (place, salt) in (0..8).zip(salts::ENDS.into_iter().cycle()) {
        let pair = ties(salt)[place];
        for keys in about(pair) {
            for slots in [keys.len(), keys.len() + 2] {
                tally.case(|case| a_key_twice(case, slots, salt, &keys, pair));
                tally.case(|case| greater_first(case, slots, salt, &keys, pair));
            }
        }
    }
    for keys in parts(&[1, 2, 3, 4, 5]) {
        tally.case(|case| no_order(case, &keys));
        tally.case(|case| key_zero(case, &keys));
        tally.case(|case| other_priority(case, 5, &keys));
    }
    for _ in 0..20 {
        tally.case(|case| {
            let keys = case.random.keys(40);
            other_priority(case, 64, &keys);
        });
    }
}

/// The pair alone and with keys on either side of it.
fn about((a, b): (u64, u64)) -> Vec<Vec<u64>> {
    let others = parts(&[1, 2, a - 1, b + 1, u64::MAX]);
    let with_pair = |mut keys: Vec<u64>| {
        keys.extend([a, b]);
        keys.sort_unstable();
        keys
    };
    others.into_iter().map(with_pair).collect()
}

/// Both calls on an image and all calls that ask for soundness on a table.
fn try_both(case: &mut Case, keys: &[u64], table: Vec<u64>, image: Vec<u8>) {
    let slots = slots_of(&table).expect("a table");
    damaged_tables::each_call(case, keys, &table);
    lend_blank(case, slots);
    damaged_images::read_and_list(case, image);
}

fn lend_blank(case: &mut Case, slots: usize) {
    let blank = case.contents(3, &[]);
    case.lend(slots, &blank);
}

/// One key stands in both slots and both records of a pair, which its priority
/// would allow.
fn a_key_twice(case: &mut Case, slots: usize, salt: u64, keys: &[u64], (a, b): (u64, u64)) {
    let order = case.random.order();
    let contents = case.contents_under(salt, order, keys);
    for (gone, twice) in [(a, b), (b, a)] {
        let mut table = sound_table(slots, &contents);
        for word in &mut table {
            if *word == gone {
                *word = twice;
            }
        }
        let mut image = image_of(&contents);
        replace(&mut image, &gone.to_le_bytes(), &twice.to_le_bytes());
        try_both(case, keys, table, image);
    }
}

fn replace(bytes: &mut [u8], old: &[u8], new: &[u8]) {
    for start in 0..=bytes.len() - old.len() {
        if bytes[start..].starts_with(old) {
            bytes[start..start + new.len()].copy_from_slice(new);
        }
    }
}

/// Of two keys of equal priority the greater outranks the lesser.
fn greater_first(case: &mut Case, slots: usize, salt: u64, keys: &[u64], (_, b): (u64, u64)) {
    let raised = |salted| priority(salted) + u64::from(salted ^ salt == b);
    let order = case.random.order();
    let contents = case.contents_under(salt, order, keys);
    with_priority(case, slots, &contents, &raised);
}

/// The bytes of a key are taken from the highest down.
fn other_priority(case: &mut Case, slots: usize, keys: &[u64]) {
    let swapped = |key: u64| priority(key.swap_bytes());
    let order = case.random.order();
    let contents = case.contents(order, keys);
    with_priority(case, slots, &contents, &swapped);
}

fn with_priority(case: &mut Case, slots: usize, contents: &Contents, priority: Priority) {
    let table = table::words(priority, contents, slots);
    let image = image::image(priority, contents);
    try_both(case, &contents.keys(), table, image);
}

/// The table and the image for a number that is no order.
fn no_order(case: &mut Case, keys: &[u64]) {
    for order in [2, 256, 257, 1000] {
        let contents = case.contents(order, keys);
        damaged_tables::each_call(case, keys, &sound_table(7, &contents));
    }
    // The others have no byte.
    lend_blank(case, 7);
    let contents = case.contents(2, keys);
    damaged_images::read_and_list(case, image_of(&contents));
}

/// The image of a set that has the key zero.
fn key_zero(case: &mut Case, keys: &[u64]) {
    let with_zero = [&[0], keys].concat();
    lend_blank(case, 7);
    for order in [3, 4, 255] {
        let contents = case.contents(order, &with_zero);
        damaged_images::read_and_list(case, image_of(&contents));
    }
}
