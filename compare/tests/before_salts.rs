//! With the salt zero every table of the archive is the one of before there were salts with a
//! zero word after the root key, and every image the one of before: those of version 0.5.0.

use btreap::Measure;
use reference::before_salts::{cases, Call};
use reference::measure;

/// Makes a call of the record with the salt zero, whatever it replies: a refused insert or
/// delete is part of a history.
fn make(table: &mut [u64], call: &Call) {
    match call {
        Call::SetUp { order } => _ = btreap::set_up(table, *order, 0),
        Call::Build { contents } => {
            let (lengths, corrections) = (contents.lengths(), contents.corrections());
            let (order, keys) = (contents.order, contents.keys());
            _ = btreap::build_measured(table, order, 0, &keys, &lengths, &corrections);
        }
        Call::Load { order, seed, count } => _ = btreap::load(table, *order, *seed, *count),
        Call::Insert { key, measure } => {
            let measure::Measure { length, correction } = *measure;
            _ = btreap::insert_measured(table, *key, Measure::new(length, correction));
        }
        Call::Delete { key } => _ = btreap::delete(table, *key),
    }
}

#[test]
fn tables_and_images_of_salt_zero_are_those_of_before() {
    for case in cases() {
        let mut table = vec![7; btreap::table_words(case.slots)];
        for call in &case.calls {
            make(&mut table, call);
        }
        let mut image = vec![0; btreap::LONGEST_IMAGE];
        let size = btreap::write(&table, &mut image).expect("the table is sound");
        assert!(
            case.is_as_before(&table, &image[..size]),
            "{:?}",
            case.calls
        );
    }
}
