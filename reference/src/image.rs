//! Document 01, section "Image", with the measures and the salt of document 02.

use crate::blocks::blocks;
use crate::measure::Measure;
use crate::priority::Priority;
use crate::shape::{Node, Shape};
use crate::table::shape_of;
use crate::{is_order, Contents, Set, MOST_SLOTS};

const HEADER: usize = 15;
/// A header with "the salt's eight bytes after the root key".
const SALTED_HEADER: usize = HEADER + 8;
const BLOCK: usize = 14;
const NODE: usize = 30;
const MEASURED_NODE: usize = 36;

/// The image of an order and a set under a salt. "One header, then blocks by falling level,
/// then rising leader; after each block its keys, rising."
pub fn image(priority: Priority, contents: &Contents) -> Vec<u8> {
    let shape = shape_of(priority, contents);
    let blocks = blocks(&shape);
    let mut bytes = header(contents, &shape, blocks.len());
    for block in &blocks {
        // "`LB`: block's leader key (8), level (2), keys in it (2)."
        bytes.extend(b"LB");
        bytes.extend(eight(block.leader));
        bytes.extend(two(block.level));
        bytes.extend(two(block.keys.len() as u64));
        for key in &block.keys {
            bytes.extend(node(shape.node(*key).unwrap(), contents.set[key]));
        }
    }
    assert_eq!(bytes.len(), length(contents, blocks.len()));
    bytes
}

/// "`LH`: order (1 byte), n (2), blocks (2), root key (8)." "An image with salt other
/// than zero opens with `LS` in place of `LH`, the salt's eight bytes after the root key;
/// salt zero keeps `LH`".
fn header(contents: &Contents, shape: &Shape, blocks: usize) -> Vec<u8> {
    let is_salted = contents.salt != 0;
    let mark = if is_salted { b"LS" } else { b"LH" };
    let mut bytes = mark.to_vec();
    bytes.push(u8::try_from(contents.order).unwrap());
    bytes.extend(two(contents.set.len() as u64));
    bytes.extend(two(blocks as u64));
    bytes.extend(eight(shape.root));
    if is_salted {
        bytes.extend(eight(contents.salt));
    }
    bytes
}

/// "`LN`: key (8), left (8), right (8), rank (2), count (2)." "In images a measured
/// key is written under `LM`, the `LN` fields and then length (4 bytes) and stored
/// correction (2)"; "an unmeasured one stays `LN`".
fn node(node: &Node, measure: Measure) -> Vec<u8> {
    let mark = if measure.is_measured() { b"LM" } else { b"LN" };
    let mut bytes = mark.to_vec();
    bytes.extend(eight(node.key));
    bytes.extend(eight(node.left));
    bytes.extend(eight(node.right));
    bytes.extend(two(node.rank));
    bytes.extend(two(node.count));
    if measure.is_measured() {
        let [length, stored] = measure.words();
        bytes.extend(four(length));
        bytes.extend(two(stored));
    }
    bytes
}

/// "Length is 15 + 14·b + 30·n", eight more with a salt, and "6 bytes more" for each
/// measured key.
fn length(contents: &Contents, blocks: usize) -> usize {
    let measures = contents.set.values();
    let measured = measures.filter(|measure| measure.is_measured()).count();
    let header = match contents.salt {
        0 => HEADER,
        _ => SALTED_HEADER,
    };
    header + BLOCK * blocks + NODE * contents.set.len() + 6 * measured
}

/// "numbers are little-endian"
fn two(number: u64) -> [u8; 2] {
    u16::try_from(number).unwrap().to_le_bytes()
}

fn four(number: u64) -> [u8; 4] {
    u32::try_from(number).unwrap().to_le_bytes()
}

fn eight(number: u64) -> [u8; 8] {
    number.to_le_bytes()
}

/// The order, salt and set whose image the bytes are; none when the image "is not one
/// that the writer makes for any order and any set of at most 4,096 keys". "`LS` with zero
/// gives 6": the writer makes no such image.
pub fn contents_of(priority: Priority, bytes: &[u8]) -> Option<Contents> {
    let contents = candidate(bytes)?;
    let possible = is_order(contents.order) && contents.set.len() <= MOST_SLOTS;
    (possible && image(priority, &contents) == bytes).then_some(contents)
}

/// The only order, salt and set whose image the bytes can be: the header's order and
/// salt, and the key and the measure of each node record. None when the bytes are no
/// sequence of records, and where a measure is outside the rules.
fn candidate(bytes: &[u8]) -> Option<Contents> {
    let order = *bytes.get(2)? as u64;
    let (salt, mut rest) = after_header(bytes)?;
    let mut set = Set::new();
    while !rest.is_empty() {
        if rest.starts_with(b"LB") {
            rest = rest.get(BLOCK..)?;
        } else if rest.starts_with(b"LN") {
            set.insert(number(rest.get(2..10)?), Measure::NONE);
            rest = rest.get(NODE..)?;
        } else if rest.starts_with(b"LM") {
            let words = [number(rest.get(30..34)?), number(rest.get(34..36)?)];
            set.insert(number(&rest[2..10]), Measure::of_words(words)?);
            rest = rest.get(MEASURED_NODE..)?;
        } else {
            return None;
        }
    }
    // "A key is a 64-bit unsigned number, 1 to 2^64 − 1."
    if set.contains_key(&0) {
        return None;
    }
    Some(Contents { order, salt, set })
}

/// The salt of the header, and the records after it; none when there is no header.
fn after_header(bytes: &[u8]) -> Option<(u64, &[u8])> {
    match bytes.get(..2)? {
        b"LH" => Some((0, bytes.get(HEADER..)?)),
        b"LS" => {
            let salt = number(bytes.get(HEADER..SALTED_HEADER)?);
            Some((salt, &bytes[SALTED_HEADER..]))
        }
        _ => None,
    }
}

/// The number that these bytes are, the lowest first.
fn number(bytes: &[u8]) -> u64 {
    let digits = bytes.iter().rev();
    digits.fold(0, |number, &byte| 256 * number + u64::from(byte))
}
