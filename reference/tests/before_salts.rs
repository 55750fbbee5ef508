//! With the salt zero every table is the one of before there were salts with a zero word
//! after the root key, and every image the one of before: those of version 0.5.0, by both
//! forms.

mod common;

use common::forms::{Form, FORMS};
use reference::before_salts::{cases, Call, Case};
use reference::table::{length_of_slots, SALT_WORD};

/// Makes a call of the record with the salt zero, whatever it replies: a refused insert or
/// delete is part of a history.
fn make(form: Form, table: &mut [u64], call: &Call) {
    match call {
        Call::SetUp { order } => _ = (form.set_up)(table, *order, 0),
        Call::Build { contents } => {
            let (lengths, corrections) = (contents.lengths(), contents.corrections());
            let (order, keys) = (contents.order, contents.keys());
            _ = (form.build)(table, order, 0, &keys, &lengths, &corrections);
        }
        Call::Load { order, seed, count } => _ = (form.load)(table, *order, *seed, *count),
        Call::Insert { key, measure } => _ = (form.insert)(table, *key, *measure),
        Call::Delete { key } => _ = (form.delete)(table, *key),
    }
}

/// The table that the calls of a case make now, and its image.
fn made(form: Form, case: &Case) -> (Vec<u64>, Vec<u8>) {
    let mut table = vec![7; length_of_slots(case.slots)];
    for call in &case.calls {
        make(form, &mut table, call);
    }
    let mut image = vec![0; 8 * table.len()];
    let reply = (form.write)(&table, &mut image);
    assert_eq!(reply.refusal, 0);
    image.truncate(reply.length as usize);
    (table, image)
}

#[test]
fn tables_and_images_of_salt_zero_are_those_of_before() {
    for form in FORMS {
        for case in cases() {
            let (table, image) = made(form, &case);
            assert!(case.is_as_before(&table, &image), "{:?}", case.calls);
        }
    }
}

/// The record would show it: any other word, any other byte, another salt.
#[test]
fn another_word_or_byte_would_show() {
    for case in cases() {
        let (table, image) = made(FORMS[1], &case);
        for word in [0, 1, 2, SALT_WORD, 4, table.len() / 2, table.len() - 1] {
            let mut other = table.clone();
            other[word] ^= 1 << 40;
            assert!(!case.is_as_before(&other, &image));
        }
        for byte in [0, 1, 2, image.len() / 2, image.len() - 1] {
            let mut other = image.clone();
            other[byte] ^= 1;
            assert!(!case.is_as_before(&table, &other));
        }
        assert!(!case.is_as_before(&table, &image[1..]));
    }
}

/// Small sets and large, measured and not, of several orders and numbers of slots.
#[test]
fn the_record_is_of_many_kinds() {
    let cases = cases();
    assert_eq!(cases.len(), 156);
    for slots in [1, 2, 3, 4, 5, 7, 16, 64, 65, 300, 1000, 4096] {
        let as_many = cases.iter().filter(|case| case.slots == slots);
        assert!(as_many.count() >= 5, "{slots} slots");
    }
}
