//! Measures come back as they were given, and those outside the rules are turned down, each call's refusals in the order that it names.

mod common;

use btreap::{Found, Measure, Refusal};
use common::{table_of, unsound};

const SLOTS: usize = 3;

/// Measures at the ends of the rules and between, and that of a key which is not measured.
const RIGHT: [Measure; 6] = [
    Measure::NONE,
    Measure::new(10_000, -5_000),
    Measure::new(10_000, 5_000),
    Measure::new(26_500, 0),
    Measure::new(40_000, -5_000),
    Measure::new(40_000, 5_000),
];

/// Measures next to those, far from them, and corrections left over.
const WRONG: [Measure; 13] = [
    Measure::new(9_999, 0),
    Measure::new(40_001, 0),
    Measure::new(1, 0),
    Measure::new(65_536 + 10_000, 0),
    Measure::new((1 << 32) + 10_000, 0),
    Measure::new(u64::MAX, 0),
    Measure::new(10_000, -5_001),
    Measure::new(40_000, 5_001),
    Measure::new(26_500, i32::MIN),
    Measure::new(26_500, i32::MAX),
    Measure::new(0, 1),
    Measure::new(0, -5_000),
    Measure::new(0, i32::MIN),
];

/// What a lookup says of the measure of a held key.
#[track_caller]
fn measure_of(table: &[u64], key: u64) -> Measure {
    match btreap::look_up(table, key) {
        Ok(Found::Held { measure, .. }) => measure,
        other => panic!("{other:?}"),
    }
}

/// A table's image.
fn image_of(table: &[u64]) -> Vec<u8> {
    let mut image = vec![0; btreap::LONGEST_IMAGE];
    let size = btreap::write(table, &mut image).unwrap();
    image.truncate(size);
    image
}

/// What the library replies to an insert with this measure into a blank table.
fn reply(length: u64, correction: i32) -> Result<u64, Refusal> {
    btreap::insert_measured(&mut table_of(1, &[]), 5, Measure::new(length, correction))
}

/// The published ranges are document 02's, and the library takes both ends of each and refuses what is one beyond.
#[test]
fn the_ends_of_the_rules() {
    assert_eq!((Measure::LENGTHS, Measure::CORRECTIONS), (10_000..=40_000, -5_000..=5_000));
    let (least, greatest) = Measure::LENGTHS.into_inner();
    let (lowest, highest) = Measure::CORRECTIONS.into_inner();
    for length in [least, greatest] {
        for correction in [lowest, highest] {
            assert_eq!(reply(length, correction), Ok(0));
        }
        assert_eq!(reply(length, lowest - 1), Err(Refusal::WrongMeasure));
        assert_eq!(reply(length, highest + 1), Err(Refusal::WrongMeasure));
    }
    for correction in [lowest, highest] {
        assert_eq!(reply(least - 1, correction), Err(Refusal::WrongMeasure));
        assert_eq!(reply(greatest + 1, correction), Err(Refusal::WrongMeasure));
    }
}

#[test]
fn measured_or_not() {
    assert_eq!(RIGHT.map(Measure::is_measured), [false, true, true, true, true, true]);
    assert_eq!(Measure::default(), Measure::NONE);
}

/// An inserted measure is found, and stored as document 02 lays down: after the count the length and the correction plus 5,000.
#[test]
fn an_inserted_measure_is_found() {
    for measure in RIGHT {
        let mut table = table_of(1, &[]);
        btreap::insert_measured(&mut table, 5, measure).unwrap();
        assert_eq!(measure_of(&table, 5), measure);
        let found = btreap::look_up(&table, 5).unwrap();
        assert_eq!(found.measure(), Some(measure).filter(|_| measure != Measure::NONE));
        let stored = if measure.is_measured() { measure.correction + 5_000 } else { 0 };
        assert_eq!(table, [3, 1, 5, 0, 5, 0, 0, 0, 0, 1, measure.length, stored as u64]);
    }
}

/// Inserts in any order, a build and a reading make the same table.
#[test]
fn mixed_sets_are_the_same_however_reached() {
    let (keys, lengths, corrections) = ([5, 7, 9], [10_000, 0, 40_000], [-5_000, 0, 5_000]);
    let mut built = vec![9; btreap::table_words(SLOTS)];
    btreap::build_measured(&mut built, 3, 0, &keys, &lengths, &corrections).unwrap();
    for order in [[0, 1, 2], [1, 2, 0], [2, 1, 0]] {
        let mut inserted = table_of(SLOTS, &[]);
        for i in order {
            btreap::insert_measured(&mut inserted, keys[i], Measure::new(lengths[i], corrections[i])).unwrap();
        }
        assert_eq!(inserted, built);
    }
    let image = image_of(&built);
    assert_eq!(image.len(), image_of(&table_of(SLOTS, &keys)).len() + 2 * 6);
    let mut read = vec![7; built.len()];
    btreap::read(&mut read, &image).unwrap();
    assert_eq!(read, built);
}

#[test]
fn plain_calls_leave_keys_unmeasured() {
    let mut table = table_of(SLOTS, &[5, 7]);
    btreap::insert(&mut table, 9).unwrap();
    for key in [5, 7, 9] {
        assert_eq!(btreap::look_up(&table, key).unwrap().measure(), None);
        assert_eq!(measure_of(&table, key), Measure::NONE);
    }
    assert_eq!(btreap::look_up(&table, 6).unwrap().measure(), None);
    btreap::load(&mut table, 3, 0, 3).unwrap();
    assert_eq!(measure_of(&table, 383), Measure::NONE);
}

/// To change a measure, the key is deleted and inserted again.
#[test]
fn a_held_key_keeps_its_measure() {
    let mut table = table_of(SLOTS, &[5]);
    let measure = Measure::new(26_500, -120);
    assert_eq!(btreap::insert_measured(&mut table, 5, measure), Err(Refusal::KeyHeld));
    assert_eq!(measure_of(&table, 5), Measure::NONE);
    btreap::delete(&mut table, 5).unwrap();
    btreap::insert_measured(&mut table, 5, measure).unwrap();
    assert_eq!(measure_of(&table, 5), measure);
}

/// The insert is refused, and no word has changed.
#[track_caller]
fn refused(table: &[u64], key: u64, measure: Measure, refusal: Refusal) {
    let mut after = table.to_vec();
    assert_eq!(btreap::insert_measured(&mut after, key, measure), Err(refusal), "{key}, {measure:?}");
    assert_eq!(after, table);
}

/// 1, 3, 12, 7, 8, 10.
#[test]
fn refusals_of_an_insert_in_their_order() {
    let full = table_of(SLOTS, &[5, 7, 9]);
    for measure in WRONG {
        for table in [&full, &unsound(SLOTS), &table_of(SLOTS, &[])] {
            refused(&table[1..], 0, measure, Refusal::WrongLength);
            refused(table, 0, measure, Refusal::ZeroKey);
            refused(table, 5, measure, Refusal::WrongMeasure);
            refused(table, 6, measure, Refusal::WrongMeasure);
        }
    }
    for measure in RIGHT {
        refused(&unsound(SLOTS), 5, measure, Refusal::NotSound);
        refused(&full, 5, measure, Refusal::KeyHeld);
        refused(&full, 6, measure, Refusal::TooManyKeys);
    }
}

/// 1, 2, 5, 12, 10.
#[test]
fn refusals_of_a_build_in_their_order() {
    let lists: [(&[u64], &[i32]); 6] =
        [(&[0, 9_999], &[0, 0]), (&[0, 0], &[1, 0]), (&[0], &[0, 0]), (&[0, 0], &[]), (&[0, 0, 0], &[0, 0]), (&[0, 0], &[0, 0, 0])];
    let mut table = table_of(1, &[5]);
    for (lengths, corrections) in lists {
        let mut build =
            |from: usize, order: u64, keys: &[u64]| btreap::build_measured(&mut table[from..], order, 0, keys, lengths, corrections);
        assert_eq!(build(1, 2, &[7, 5]), Err(Refusal::WrongLength));
        assert_eq!(build(0, 2, &[7, 5]), Err(Refusal::WrongOrder));
        assert_eq!(build(0, 3, &[7, 5]), Err(Refusal::NotRising));
        assert_eq!(build(0, 3, &[5, 7]), Err(Refusal::WrongMeasure));
    }
    assert_eq!(btreap::build_measured(&mut table, 3, 0, &[5, 7], &[10_000, 0], &[0, 0]), Err(Refusal::TooManyKeys));
    assert_eq!(btreap::build(&mut table, 3, 0, &[5, 7]), Err(Refusal::TooManyKeys));
    assert_eq!(table, table_of(1, &[5]));
}

/// As many keys as a table can have, none measured, and one more: 1, 2, 5, 10, and never 12.
#[test]
fn a_plain_build_of_the_most_keys_and_more() {
    let most = btreap::MOST_SLOTS as u64;
    let keys: Vec<u64> = (1..=most).collect();
    let full = table_of(btreap::MOST_SLOTS, &keys);
    assert_eq!(measure_of(&full, most), Measure::NONE);
    let mut table = full.clone();
    for number in [most + 1, 70_000] {
        let keys: Vec<u64> = (1..=number).collect();
        let falling: Vec<u64> = (1..=number).rev().collect();
        assert_eq!(btreap::build(&mut table[1..], 2, 0, &falling), Err(Refusal::WrongLength));
        assert_eq!(btreap::build(&mut table, 2, 0, &falling), Err(Refusal::WrongOrder));
        assert_eq!(btreap::build(&mut table, 3, 0, &falling), Err(Refusal::NotRising));
        assert_eq!(btreap::build(&mut table, 3, 0, &keys), Err(Refusal::TooManyKeys));
    }
    assert_eq!(table, full);
}
