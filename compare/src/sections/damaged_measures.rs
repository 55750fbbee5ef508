//! The words of measures in tables and their bytes in images changed, exchanged and
//! put under the other mark; and tables of the layouts before measures and before salts.

use super::damaged_images::{read_and_list, read_or_not};
use super::{exercise, Section};
use crate::call::Call;
use crate::case::{Case, Tally};
use crate::measures;
use crate::salts::{self, contents_of};
use crate::tables::{
    contents_in, header_length, image_of, length_word, longest_image, sound_table, BLOCK,
    MEASURED_NODE, NODE,
};
use reference::measure::Measure;
use reference::table::SALT_WORD;
use reference::Contents;

pub const SECTION: Section = Section {
    name: "damaged-measures",
    run,
};

const ORDER: u64 = 3;
const LEAST: Measure = Measure::new(10_000, -5_000);
const MIDDLE: Measure = Measure::new(26_500, 0);
const GREATEST: Measure = Measure::new(40_000, 5_000);

/// Lengths and stored corrections to write; in images those that have the bytes.
const LENGTHS: [u64; 9] = [
    0,
    1,
    9_999,
    10_000,
    40_000,
    40_001,
    65_536 + 26_500,
    u32::MAX as u64,
    u64::MAX,
];
const CORRECTIONS: [u64; 8] = [0, 1, 5_000, 10_000, 10_001, 65_535, 65_536, u64::MAX];

fn run(tally: &mut Tally) {
    for table in tables() {
        tally.case(|case| words_changed(case, &table));
        tally.case(|case| words_moved(case, &table));
        tally.case(|case| bytes_changed(case, &table));
        tally.case(|case| marks_exchanged(case, &table));
    }
    tally.case(old_layouts);
}

/// Tables of three keys and an empty slot: none measured, some, all; each under another
/// salt.
fn tables() -> Vec<Vec<u64>> {
    let measures = [
        [Measure::NONE, Measure::NONE, Measure::NONE],
        [LEAST, Measure::NONE, GREATEST],
        [Measure::NONE, MIDDLE, Measure::NONE],
        [MIDDLE, GREATEST, LEAST],
    ];
    let table = |([a, b, c], salt): ([Measure; 3], u64)| {
        sound_table(4, &contents_of(salt, ORDER, [(4, a), (5, b), (9, c)]))
    };
    measures.into_iter().zip(salts::ENDS).map(table).collect()
}

// ---------------------------------------------------------------------------
// Tables

/// Every pair of words in every slot: sound where the slot has a key and they are
/// those of a right measure, and where both are zero.
fn words_changed(case: &mut Case, table: &[u64]) {
    for slot in 0..4 {
        for length in LENGTHS {
            for correction in CORRECTIONS {
                let mut damaged = table.to_vec();
                let word = length_word(slot);
                (damaged[word], damaged[word + 1]) = (length, correction);
                let is_held = table[word - 6] != 0;
                let words = [length, correction];
                let is_right = is_held && Measure::of_words(words).is_some();
                let refusal = if is_right || words == [0, 0] { 0 } else { 7 };
                judged(case, &damaged, refusal);
            }
        }
    }
}

/// The two words exchanged, and those of two slots; a table whose key has lost its
/// measure is that of another set.
fn words_moved(case: &mut Case, table: &[u64]) {
    for slot in 0..4 {
        let word = length_word(slot);
        let mut damaged = table.to_vec();
        damaged.swap(word, word + 1);
        ask(case, &damaged);
        for other in 0..slot {
            let mut damaged = table.to_vec();
            damaged.swap(word, length_word(other));
            ask(case, &damaged);
            damaged.swap(word + 1, length_word(other) + 1);
            ask(case, &damaged);
        }
        let mut without = table.to_vec();
        without[word..word + 2].fill(0);
        judged(case, &without, 0);
    }
}

/// A lookup, an insert and a writing on a table that has this fault, 0 for none.
fn judged(case: &mut Case, table: &[u64], refusal: u64) {
    case.table = table.to_vec();
    case.refused(Call::LookUp { key: 5 }, refusal);
    exercise::insert(case, 7, refusal);
    case.table = table.to_vec();
    let room = longest_image(4);
    case.refused(Call::Write { room }, refusal);
}

/// The same where the second program alone says what is due.
fn ask(case: &mut Case, table: &[u64]) {
    case.table = table.to_vec();
    case.call(Call::LookUp { key: 5 });
    let (key, measure) = (7, measures::right(&mut case.random));
    case.call(Call::Insert { key, measure });
    case.table = table.to_vec();
    case.call(Call::Delete { key: 4 });
}

/// Tables without the salt, and of six words for each slot: of no length that a table has.
fn old_layouts(case: &mut Case) {
    for (slots, keys) in [
        (1, &[][..]),
        (1, &[5]),
        (2, &[4, 9]),
        (4, &[]),
        (8, &[4, 5, 9]),
        (4096, &[]),
        (4096, &[4, 5, 9]),
    ] {
        let mut before_salts = sound_table(slots, &Contents::unmeasured(ORDER, keys));
        before_salts.remove(SALT_WORD);
        let (header, records) = before_salts.split_at(SALT_WORD);
        let mut before_measures = header.to_vec();
        let fewer = records.chunks(8).flat_map(|record| &record[..6]);
        before_measures.extend(fewer);
        judged(case, &before_salts, 1);
        judged(case, &before_measures, 1);
    }
    // The image of unmeasured keys without a salt is what it was.
    let image = image_of(&Contents::unmeasured(ORDER, &[5]));
    exercise::lend_keys(case, 1, ORDER, &[]);
    case.refused(Call::Read { image }, 0);
}

// ---------------------------------------------------------------------------
// Images

/// Every pair of numbers in every record of a measured key.
fn bytes_changed(case: &mut Case, table: &[u64]) {
    let image = image_of(&contents_in(table));
    exercise::lend_rubbish(case, 4);
    for place in measured_records(&image) {
        let at = place + NODE;
        for length in LENGTHS.iter().flat_map(|&length| u32::try_from(length)) {
            for correction in CORRECTIONS.iter().flat_map(|&word| u16::try_from(word)) {
                let mut damaged = image.clone();
                damaged[at..at + 4].copy_from_slice(&length.to_le_bytes());
                damaged[at + 4..at + 6].copy_from_slice(&correction.to_le_bytes());
                let words = [length.into(), correction.into()];
                let is_right = length != 0 && Measure::of_words(words).is_some();
                read_or_not(case, damaged, if is_right { 0 } else { 6 });
            }
        }
    }
}

/// `LM` for `LN` with and without a measure, `LN` for `LM` with and without; the
/// last is the image of another set.
fn marks_exchanged(case: &mut Case, table: &[u64]) {
    let image = image_of(&contents_in(table));
    exercise::lend_rubbish(case, 4);
    for place in measured_records(&image) {
        let mut damaged = image.clone();
        damaged[place + 1] = b'N';
        read_or_not(case, damaged.clone(), 6);
        damaged.drain(place + NODE..place + MEASURED_NODE);
        read_or_not(case, damaged, 0);
    }
    for place in records(&image, b"LN") {
        let mut damaged = image.clone();
        damaged[place + 1] = b'M';
        read_or_not(case, damaged.clone(), 6);
        for (measure, refusal) in [([0; 6], 6), ([0x10, 0x27, 0, 0, 0, 0], 0)] {
            let mut longer = damaged.clone();
            longer.splice(place + NODE..place + NODE, measure);
            read_or_not(case, longer, refusal);
        }
    }
    for mark in [b"LO", b"LL", b"Lm", b"lM", b"MM", b"ML"] {
        for place in measured_records(&image) {
            let mut damaged = image.clone();
            damaged[place..place + 2].copy_from_slice(mark);
            read_and_list(case, damaged);
        }
    }
}

/// Where an image has the records of measured keys.
pub fn measured_records(image: &[u8]) -> Vec<usize> {
    records(image, b"LM")
}

/// Where an image has the records of that mark.
fn records(image: &[u8], mark: &[u8]) -> Vec<usize> {
    let (mut places, mut at) = (vec![], header_length(image));
    while at < image.len() {
        if image[at..].starts_with(mark) {
            places.push(at);
        }
        at += match image[at + 1] {
            b'B' => BLOCK,
            b'M' => MEASURED_NODE,
            _ => NODE,
        };
    }
    places
}
