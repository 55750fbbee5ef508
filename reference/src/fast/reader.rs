//! What bytes are the image of, if they are one.

use super::image::{BLOCK_BYTES, HEADER_BYTES, MEASURED_BYTES, NODE_BYTES, SALT_BYTES};
use super::stored::Stored;
use crate::{is_order, MOST_SLOTS};

/// An order, a salt, and keys that rise after a first zero, each with its measure.
pub struct Candidate {
    pub order: u64,
    pub salt: u64,
    pub keys: Vec<u64>,
    pub measures: Vec<Stored>,
}

/// What the bytes are the image of if they are one; none where they cannot be.
pub fn candidate(bytes: &[u8]) -> Option<Candidate> {
    let (header, mut rest) = split(bytes, HEADER_BYTES)?;
    let order = header[2].into();
    let number = u16::from_le_bytes([header[3], header[4]]) as usize;
    let salt = take_salt(header[1], &mut rest)?;
    let longest = (BLOCK_BYTES + MEASURED_BYTES) * number;
    if number > MOST_SLOTS || rest.len() > longest || !is_order(order) {
        return None;
    }
    let mut held = Vec::with_capacity(number + 1);
    held.push((0, Stored::NONE));
    while let Some((block, later)) = split(rest, BLOCK_BYTES) {
        let more = u16::from_le_bytes([block[12], block[13]]) as usize;
        if held.len() + more > number + 1 {
            return None;
        }
        rest = take_nodes(later, more, &mut held)?;
    }
    // One rising run for each level: this sort merges runs.
    held.sort_by_key(|&(key, _)| key);
    let (keys, measures): (Vec<u64>, Vec<Stored>) = held.into_iter().unzip();
    (keys.len() == number + 1 && rises(&keys)).then_some(Candidate {
        order,
        salt,
        keys,
        measures,
    })
}

/// The salt, whose bytes are next after a header of the mark `LS`; zero for another mark.
fn take_salt(mark: u8, rest: &mut &[u8]) -> Option<u64> {
    if mark != b'S' {
        return Some(0);
    }
    let (salt, later) = split(rest, SALT_BYTES)?;
    *rest = later;
    Some(u64::from_le_bytes(salt.try_into().expect("eight bytes")))
}

/// Takes so many node records, of either kind; gives the bytes after them.
#[inline(always)]
fn take_nodes<'a>(
    bytes: &'a [u8],
    number: usize,
    held: &mut Vec<(u64, Stored)>,
) -> Option<&'a [u8]> {
    let mut rest = bytes;
    for _ in 0..number {
        let (node, later) = split(rest, NODE_BYTES)?;
        let key = u64::from_le_bytes(node[2..10].try_into().expect("eight bytes"));
        let (measure, later) = match node[1] {
            b'M' => take_measure(later)?,
            _ => (Stored::NONE, later),
        };
        held.push((key, measure));
        rest = later;
    }
    Some(rest)
}

/// Takes a length (4 bytes) and a stored correction (2).
#[inline(always)]
fn take_measure(bytes: &[u8]) -> Option<(Stored, &[u8])> {
    let (words, later) = split(bytes, MEASURED_BYTES - NODE_BYTES)?;
    let length = u32::from_le_bytes([words[0], words[1], words[2], words[3]]);
    let correction = u16::from_le_bytes([words[4], words[5]]);
    let measure = Stored::of_words(length.into(), correction.into())?;
    Some((measure, later))
}

/// The first so many bytes and the others, if there are so many.
fn split(bytes: &[u8], number: usize) -> Option<(&[u8], &[u8])> {
    (number <= bytes.len()).then(|| bytes.split_at(number))
}

/// Whether the words rise strictly.
pub fn rises(words: &[u64]) -> bool {
    words.windows(2).all(|pair| pair[0] < pair[1])
}
