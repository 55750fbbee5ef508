//! What version 0.5.0 made, the last without salts, for the tests and the comparison: with
//! the salt zero every table is still the one that it made, with a zero word after the root
//! key, and every image is the same. The record and what made it are in
//! `tests/before_salts` of the repository.

use crate::measure::Measure;
use crate::random::splitmix;
use crate::table::SALT_WORD;
use crate::Contents;
use std::collections::BTreeSet;

const RECORD: &str = include_str!("../../tests/before_salts/record.txt");

/// A call that had a part in making a table.
#[derive(Clone, Debug)]
pub enum Call {
    SetUp { order: u64 },
    Build { contents: Contents },
    Load { order: u64, seed: u64, count: u16 },
    Insert { key: u64, measure: Measure },
    Delete { key: u64 },
}

/// A table of so many slots, the calls that made it, and the bytes that its words and its
/// image had.
pub struct Case {
    pub slots: usize,
    pub calls: Vec<Call>,
    words: Bytes,
    image: Bytes,
}

/// All cases of the record.
pub fn cases() -> Vec<Case> {
    let lines: Vec<&str> = RECORD.lines().collect();
    lines.chunks(3).map(Case::read).collect()
}

impl Case {
    fn read(lines: &[&str]) -> Case {
        let mut words = lines[0].split(' ');
        let recipe = words.next().expect("a recipe");
        let numbers: Vec<u64> = words.map(|word| word.parse().expect("a number")).collect();
        Case {
            slots: numbers[1] as usize,
            calls: calls(recipe, &numbers),
            words: Bytes::read(lines[1]),
            image: Bytes::read(lines[2]),
        }
    }

    /// Whether a table has the words that it had, with a zero after the root key, and the
    /// same image.
    pub fn is_as_before(&self, table: &[u64], image: &[u8]) -> bool {
        let mut words = table.to_vec();
        let salt = words.remove(SALT_WORD);
        let bytes: Vec<u8> = words.iter().flat_map(|word| word.to_le_bytes()).collect();
        salt == 0 && self.words.are(&bytes) && self.image.are(image)
    }
}

/// The calls of a recipe, as `tests/before_salts/make.c` tells of them.
fn calls(recipe: &str, numbers: &[u64]) -> Vec<Call> {
    match (recipe, numbers) {
        ("keys", [order, _, share, seed, keys @ ..]) => {
            vec![build(*order, keys, *share, &mut { *seed })]
        }
        ("build", [order, _, share, seed, number]) => {
            let mut state = *seed;
            let keys = draw_keys(*number as usize, &mut state);
            vec![build(*order, &keys, *share, &mut state)]
        }
        ("history", [order, slots, seed, number]) => {
            let (order, mut state) = (*order, *seed);
            let changes = (0..*number).map(|_| draw_change(*slots, &mut state));
            [Call::SetUp { order }].into_iter().chain(changes).collect()
        }
        ("load", [order, _, seed, count]) => {
            let (order, seed, count) = (*order, *seed, *count as u16);
            vec![Call::Load { order, seed, count }]
        }
        _ => panic!("no recipe: {recipe} {numbers:?}"),
    }
}

/// The build of the keys, rising, with measures drawn for them.
fn build(order: u64, keys: &[u64], share: u64, state: &mut u64) -> Call {
    let mut contents = Contents::unmeasured(order, keys);
    let measures = contents.set.values_mut();
    measures.for_each(|measure| *measure = draw_measure(share, state));
    Call::Build { contents }
}

/// So many keys of any magnitude, rising.
fn draw_keys(number: usize, state: &mut u64) -> Vec<u64> {
    let mut keys = BTreeSet::new();
    while keys.len() < number {
        let key = splitmix(state);
        let key = key >> (splitmix(state) % 64);
        keys.extend((key != 0).then_some(key));
    }
    keys.into_iter().collect()
}

/// The measure of a key, where none is measured (0), some are (1) or all (2).
fn draw_measure(share: u64, state: &mut u64) -> Measure {
    if share == 2 || (share == 1 && splitmix(state) % 2 == 1) {
        let length = 10_000 + splitmix(state) % 30_001;
        let correction = (splitmix(state) % 10_001) as i32 - 5_000;
        return Measure::new(length, correction);
    }
    Measure::NONE
}

/// Two inserts to a delete, in so many slots.
fn draw_change(slots: u64, state: &mut u64) -> Call {
    let choice = splitmix(state) % 3;
    let key = 1 + splitmix(state) % (2 * slots);
    let measure = draw_measure(1, state);
    match choice {
        0 | 1 => Call::Insert { key, measure },
        _ => Call::Delete { key },
    }
}

// ---------------------------------------------------------------------------
// The record's bytes

/// Bytes, or how many they are and their digest.
enum Bytes {
    Whole(Vec<u8>),
    Digest(usize, u64),
}

impl Bytes {
    fn read(line: &str) -> Bytes {
        match line.split_once(" bytes, digest ") {
            None => Bytes::Whole(hexadecimal(line)),
            Some((number, digest)) => Bytes::Digest(
                number.parse().expect("a number"),
                u64::from_str_radix(digest, 16).expect("a digest"),
            ),
        }
    }

    fn are(&self, bytes: &[u8]) -> bool {
        match self {
            Bytes::Whole(whole) => whole == bytes,
            Bytes::Digest(number, due) => *number == bytes.len() && *due == digest(bytes),
        }
    }
}

fn hexadecimal(text: &str) -> Vec<u8> {
    let byte = |i| u8::from_str_radix(&text[i..i + 2], 16).expect("two digits");
    (0..text.len()).step_by(2).map(byte).collect()
}

/// FNV-1a of 64 bits.
fn digest(bytes: &[u8]) -> u64 {
    bytes.iter().fold(0xCBF2_9CE4_8422_2325, |hash, &byte| {
        (hash ^ u64::from(byte)).wrapping_mul(0x100_0000_01B3)
    })
}
