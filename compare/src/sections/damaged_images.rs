//! Images with each bit changed, cut off at each byte, lengthened, and with
//! records moved; each then read and listed.

use super::{exercise, Section};
use crate::call::Call;
use crate::case::{Case, Tally};
use crate::generator::spoil_image;
use crate::keys::{keys_at, ties, Chain};
use crate::salts::contents_of;
use crate::tables::{image_of, BLOCK, HEADER, MEASURED_NODE, NODE, SALTED_HEADER};
use reference::measure::Measure;
use reference::Contents;

pub const SECTION: Section = Section {
    name: "damaged-images",
    run,
};

const SLOTS: usize = 8;
/// Where a header and a block record keep their number of blocks or keys.
const BLOCKS_IN_HEADER: usize = 5;
const KEYS_IN_BLOCK: usize = 12;

fn run(tally: &mut Tally) {
    for image in small_images() {
        for byte in 0..image.len() {
            tally.case(|case| each_bit(case, &image, byte));
        }
        tally.case(|case| every_length(case, &image));
        tally.case(|case| every_order(case, &image));
        tally.case(|case| moved_records(case, &image));
        tally.case(|case| more_blocks(case, &image));
    }
    for (number, damages) in [(64, 300), (1000, 30), (4096, 8)] {
        tally.case(|case| large(case, number, damages));
    }
}

/// Images with no key measured, with some and with all, without a salt and under one.
fn small_images() -> Vec<Vec<u8>> {
    let salt = 0x8000_0000_0000_0005;
    let (a, b) = ties(salt)[2];
    let least = Measure::new(10_000, -5_000);
    let greatest = Measure::new(40_000, 5_000);
    let middle = Measure::new(26_500, -120);
    let mut chain = Contents::unmeasured(3, &Chain::Right.keys(salt, 4)).salted(salt);
    let measures = chain.set.values_mut().skip(1).step_by(2);
    measures.for_each(|measure| *measure = middle);
    let all = [
        Contents::unmeasured(3, &[]),
        Contents::unmeasured(255, &[5]).salted(1),
        contents_of(0, 255, [(5, least)]),
        contents_of(u64::MAX, 3, [(1, Measure::NONE), (u64::MAX, greatest)]),
        contents_of(salt, 4, [(a, least), (b, greatest)]),
        chain,
        // Example E: four blocks at three levels, two of one leader.
        Contents::unmeasured(3, &keys_at(0, &[6, 0, 1, 2, 3, 4, 5])),
    ];
    all.iter().map(image_of).collect()
}

pub fn read_and_list(case: &mut Case, image: Vec<u8>) {
    let room = 10 * image.len();
    let copy = image.clone();
    case.call(Call::Read { image: copy });
    case.call(Call::List { image, room });
}

/// The same where this refusal is due, 0 for none.
pub fn read_or_not(case: &mut Case, image: Vec<u8>, refusal: u64) {
    let (copy, room) = (image.clone(), 10 * image.len());
    case.refused(Call::Read { image: copy }, refusal);
    case.refused(Call::List { image, room }, refusal);
}

fn each_bit(case: &mut Case, image: &[u8], byte: usize) {
    exercise::lend_rubbish(case, SLOTS);
    for bit in 0..8 {
        let mut damaged = image.to_vec();
        damaged[byte] ^= 1 << bit;
        read_and_list(case, damaged);
    }
}

fn every_length(case: &mut Case, image: &[u8]) {
    exercise::lend_rubbish(case, SLOTS);
    for length in 0..=image.len() {
        read_and_list(case, image[..length].to_vec());
    }
    let record_after = [b"LB".to_vec(), vec![0; BLOCK - 2]].concat();
    let measure = [0; MEASURED_NODE - NODE];
    for more in [
        &b"\0"[..],
        b"L",
        b"LB",
        b"LN",
        b"LM",
        &measure,
        &record_after,
        image,
    ] {
        read_and_list(case, [image, more].concat());
        read_and_list(case, [more, image].concat());
    }
}

/// With few keys the bytes may be the image of the same set for another order.
fn every_order(case: &mut Case, image: &[u8]) {
    exercise::lend_rubbish(case, SLOTS);
    for order in 0..=255 {
        let mut other = image.to_vec();
        other[2] = order;
        read_and_list(case, other);
    }
}

// ---------------------------------------------------------------------------
// Records

/// The image cut into its records.
fn records(image: &[u8]) -> Vec<Vec<u8>> {
    let mut records = vec![];
    let mut rest = image;
    while !rest.is_empty() {
        let length = match &rest[..2] {
            b"LH" => HEADER,
            b"LS" => SALTED_HEADER,
            b"LB" => BLOCK,
            b"LM" => MEASURED_NODE,
            _ => NODE,
        };
        let (record, after) = rest.split_at(length);
        records.push(record.to_vec());
        rest = after;
    }
    records
}

/// Each record exchanged with each other, left out, and given twice; and each
/// block with its keys exchanged with each other.
fn moved_records(case: &mut Case, image: &[u8]) {
    exercise::lend_rubbish(case, SLOTS);
    exchanged(case, &records(image));
    exchanged(case, &parts_by_block(image));
    let records = records(image);
    for i in 0..records.len() {
        let mut fewer = records.clone();
        let record = fewer.remove(i);
        read_and_list(case, fewer.concat());
        let mut more = records.clone();
        more.insert(i, record);
        read_and_list(case, more.concat());
    }
}

fn exchanged(case: &mut Case, pieces: &[Vec<u8>]) {
    for i in 0..pieces.len() {
        for j in 0..i {
            let mut pieces = pieces.to_vec();
            pieces.swap(i, j);
            read_and_list(case, pieces.concat());
        }
    }
}

/// The header, then each block record with its node records.
fn parts_by_block(image: &[u8]) -> Vec<Vec<u8>> {
    let mut parts: Vec<Vec<u8>> = vec![];
    for record in records(image) {
        match parts.last_mut() {
            Some(part) if !record.starts_with(b"LB") => part.extend(record),
            _ => parts.push(record),
        }
    }
    parts
}

/// One block more, all numbers made to fit: one without keys, which the paper's
/// frontier text would make; and a block broken in two of the same name.
fn more_blocks(case: &mut Case, image: &[u8]) {
    exercise::lend_rubbish(case, SLOTS);
    let mut records = records(image);
    records[0][BLOCKS_IN_HEADER] += 1;
    let mut block = None;
    for i in 1..records.len() {
        if records[i].starts_with(b"LB") {
            block = Some(i);
            without_keys(case, &records, i);
        } else if let Some(start) = block {
            broken(case, &records, start, i);
        }
    }
}

/// A block without keys before record `i`, itself a block record: with its name
/// and with the levels about it.
fn without_keys(case: &mut Case, records: &[Vec<u8>], i: usize) {
    for level in 0..4 {
        let mut empty = records[i].clone();
        empty[BLOCK - 4] = level;
        empty[KEYS_IN_BLOCK] = 0;
        let mut more = records.to_vec();
        more.insert(i, empty);
        read_and_list(case, more.concat());
    }
}

/// The block that begins at one record, broken in two before another.
fn broken(case: &mut Case, records: &[Vec<u8>], start: usize, middle: usize) {
    let mut more = records.to_vec();
    let mut second = records[start].clone();
    let before = (middle - start - 1) as u8;
    second[KEYS_IN_BLOCK] -= before;
    more[start][KEYS_IN_BLOCK] = before;
    more.insert(middle, second);
    read_and_list(case, more.concat());
}

/// Random damage of an image of many keys.
fn large(case: &mut Case, number: usize, damages: usize) {
    let order = case.random.order();
    let keys = case.random.keys(number);
    let contents = case.contents(order, &keys);
    let image = image_of(&contents);
    exercise::lend_rubbish(case, number);
    for _ in 0..damages {
        let mut damaged = image.clone();
        spoil_image(&mut damaged, &mut case.random);
        read_and_list(case, damaged);
    }
    read_and_list(case, image);
}
