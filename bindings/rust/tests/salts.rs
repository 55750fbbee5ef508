//! A salt is kept in the word after the root key and in the image, decides where keys stand, and is any number.

mod common;

use btreap::{Measure, Refusal};
use common::{table_of, unsound};

const SLOTS: usize = 64;
const SALT_WORD: usize = 3;

/// No salt, the ends, a key that is held, and another.
const SALTS: [u64; 6] = [0, 1, 1 << 63, u64::MAX, 41, 0x5EED_5EED_5EED];

const KEYS: [u64; 5] = [7, 8, 41, 512, 3000];

/// The table of order 3, this salt and these keys.
fn salted(slots: usize, salt: u64, keys: &[u64]) -> Vec<u64> {
    let mut table = vec![9; btreap::table_words(slots)];
    btreap::build(&mut table, 3, salt, keys).unwrap();
    table
}

fn image_of(table: &[u64]) -> Vec<u8> {
    let mut image = vec![0; btreap::LONGEST_IMAGE];
    let size = btreap::write(table, &mut image).unwrap();
    image.truncate(size);
    image
}

/// The slot of a table's only key.
fn slot_of(table: &[u64]) -> Option<usize> {
    table[SALT_WORD + 1..].chunks(8).position(|slot| slot[0] != 0)
}

#[test]
fn a_blank_table_has_its_salt_after_the_root_key() {
    for salt in SALTS {
        let blank = [vec![255, 0, 0, salt], vec![0; 16]].concat();
        let mut table = vec![9; btreap::table_words(2)];
        btreap::set_up(&mut table, 255, salt).unwrap();
        assert_eq!(table, blank);
        table.fill(9);
        btreap::build(&mut table, 255, salt, &[]).unwrap();
        assert_eq!(table, blank);
    }
}

/// The priority of a key under a salt is that of their exclusive or without one: a lone key stands where the other would.
#[test]
fn a_key_stands_where_its_exclusive_or_with_the_salt_would() {
    for salt in SALTS {
        for key in [2, 5, 1000, u64::MAX - 1] {
            let slot = slot_of(&salted(SLOTS, salt, &[key]));
            assert_eq!(slot, slot_of(&salted(SLOTS, 0, &[key ^ salt])));
        }
    }
}

/// A key that is the salt itself is a key like any other.
#[test]
fn a_held_key_may_be_the_salt() {
    let mut table = salted(SLOTS, 41, &[7, 8]);
    btreap::insert_measured(&mut table, 41, Measure::new(26_500, 0)).unwrap();
    assert!(btreap::look_up(&table, 41).unwrap().is_held());
    btreap::delete(&mut table, 41).unwrap();
    assert_eq!(table, salted(SLOTS, 41, &[7, 8]));
}

/// However it is reached, a set makes one table under each salt, and another under each other one.
#[test]
fn tables_and_images_are_those_of_their_salts() {
    let tables = SALTS.map(|salt| salted(SLOTS, salt, &KEYS));
    for (i, salt) in SALTS.into_iter().enumerate() {
        let mut inserted = vec![7; btreap::table_words(SLOTS)];
        btreap::set_up(&mut inserted, 3, salt).unwrap();
        for key in [3000, 99, 8, 512, 7, 41] {
            btreap::insert(&mut inserted, key).unwrap();
        }
        btreap::delete(&mut inserted, 99).unwrap();
        for (j, table) in tables.iter().enumerate() {
            assert_eq!(&inserted == table, i == j);
            assert_eq!(image_of(&inserted) == image_of(table), i == j);
        }
    }
}

/// What is held does not hang on the salt.
#[test]
fn the_keys_are_the_same_under_every_salt() {
    for salt in SALTS {
        let table = salted(SLOTS, salt, &KEYS);
        let mut keys = [0; 5];
        assert_eq!(btreap::range(&table, 0, u64::MAX, &mut keys), Ok(5));
        assert_eq!(keys, KEYS);
        assert!(KEYS.iter().all(|&key| btreap::look_up(&table, key).unwrap().is_held()));
    }
}

/// `LS` in place of `LH`, and the salt's eight bytes after the root key; without a salt neither.
#[test]
fn an_image_shows_the_salt() {
    let plain = image_of(&salted(SLOTS, 0, &[5]));
    assert_eq!(&plain[..2], b"LH");
    for salt in &SALTS[1..] {
        let image = image_of(&salted(SLOTS, *salt, &[5]));
        assert_eq!(image, [b"LS", &plain[2..15], &salt.to_le_bytes(), &plain[15..]].concat());
    }
}

#[test]
fn reading_gives_a_table_the_salt_of_the_image() {
    for salt in SALTS {
        let image = image_of(&salted(SLOTS, salt, &KEYS));
        for other in SALTS {
            let mut table = salted(SLOTS, other, &[1, 2, 3]);
            assert_eq!(btreap::read(&mut table, &image), Ok(()));
            assert_eq!(table, salted(SLOTS, salt, &KEYS));
        }
    }
}

#[test]
fn a_load_has_no_salt() {
    let mut table = salted(SLOTS, 77, &KEYS);
    btreap::load(&mut table, 3, 0, 3).unwrap();
    assert_eq!(table, table_of(SLOTS, &[18, 383]));
}

/// A mark without its salt, a salt of zero, a salt without its mark.
#[test]
fn images_with_a_wrong_header_are_refused() {
    let (plain, salted) = (image_of(&salted(SLOTS, 0, &KEYS)), image_of(&salted(SLOTS, 77, &KEYS)));
    let mut table = table_of(SLOTS, &KEYS);
    for image in [
        [b"LS", &plain[2..15], &[0; 8], &plain[15..]].concat(),
        [b"LS", &plain[2..]].concat(),
        [b"LH", &salted[2..]].concat(),
        [b"LT", &salted[2..]].concat(),
        salted[..22].to_vec(),
    ] {
        assert_eq!(btreap::read(&mut table, &image), Err(Refusal::NotAnImage));
        assert_eq!(btreap::list(&image, &mut [0; 2000]), Err(Refusal::NotAnImage));
    }
    assert_eq!(table, table_of(SLOTS, &KEYS));
}

/// Keys do not stand under one salt as under another. A blank table is one under every salt.
#[test]
fn a_changed_salt_is_not_sound() {
    let mut table = salted(SLOTS, 77, &KEYS);
    table[SALT_WORD] = 78;
    assert_eq!(btreap::look_up(&table, 7), Err(Refusal::NotSound));
    let mut blank = salted(SLOTS, 77, &[]);
    blank[SALT_WORD] = 78;
    assert_eq!(btreap::insert(&mut blank, 7), Ok(0));
    assert_eq!(blank, salted(SLOTS, 78, &[7]));
}

#[test]
fn a_refusal_leaves_the_salt() {
    let mut table = unsound(SLOTS);
    assert_eq!(btreap::set_up(&mut table, 256, 77), Err(Refusal::WrongOrder));
    assert_eq!(btreap::build(&mut table, 3, 77, &[7, 7]), Err(Refusal::NotRising));
    assert_eq!(table, unsound(SLOTS));
}

/// 12 and 32,772 words are a table's; 4, 11, 13 and 32,780 are not.
#[test]
fn lengths() {
    assert_eq!([1, 4096].map(btreap::table_words), [12, 32_772]);
    let set_up = |words: usize| btreap::set_up(&mut vec![7; words], 3, 5);
    assert_eq!([12, 32_772].map(set_up), [Ok(()); 2]);
    assert_eq!([4, 11, 13, 32_780].map(set_up), [Err(Refusal::WrongLength); 4]);
    assert_eq!(btreap::LONGEST_IMAGE, 204_823);
}
