//! Candidate (c): what one would write instead. A `BTreeMap` from keys to measures
//! does the call; then the whole map is serialised and compared with a stored copy,
//! which is what tells a user that the set is the one it ought to be.

use btreap::Measure;
use std::collections::BTreeMap;
use std::fmt::Write;

/// Eight bytes for the key, four for the length, two for the correction.
const ENTRY_BYTES: usize = 14;

pub type Set = BTreeMap<u64, Measure>;

/// A set, the serialised copy that it ought to equal, and room to serialise in.
pub struct Plain {
    pub set: Set,
    pub stored: Vec<u8>,
    pub room: Vec<u8>,
}

/// The bytes of each key with its measure, rising. Room is taken also for no keys:
/// comparing bytes at no real address is slow on some processors.
pub fn serialised(set: &Set) -> Vec<u8> {
    let mut bytes = Vec::with_capacity(ENTRY_BYTES * (set.len() + 1));
    serialise_into(set, &mut bytes);
    bytes
}

fn serialise_into(set: &Set, bytes: &mut Vec<u8>) {
    for (key, measure) in set {
        let mut entry = [0; ENTRY_BYTES];
        entry[..8].copy_from_slice(&key.to_le_bytes());
        entry[8..12].copy_from_slice(&(measure.length as u32).to_le_bytes());
        entry[12..].copy_from_slice(&(measure.correction as i16).to_le_bytes());
        bytes.extend_from_slice(&entry);
    }
}

/// The key and the measure of an entry.
fn deserialised(entry: &[u8]) -> (u64, Measure) {
    let key = u64::from_le_bytes(entry[..8].try_into().expect("eight bytes"));
    let length = u32::from_le_bytes(entry[8..12].try_into().expect("four bytes"));
    let correction = i16::from_le_bytes(entry[12..].try_into().expect("two bytes"));
    (key, Measure::new(length.into(), correction.into()))
}

impl Plain {
    pub fn new(set: Set) -> Plain {
        let stored = serialised(&set);
        let room = Vec::with_capacity(stored.capacity());
        Plain { set, stored, room }
    }

    /// Serialises the whole set.
    pub fn serialise(&mut self) {
        self.room.clear();
        serialise_into(&self.set, &mut self.room);
    }

    /// Serialises and compares with the stored copy.
    pub fn agrees(&mut self) -> bool {
        self.serialise();
        self.room == self.stored
    }

    /// Makes the set of the bytes that serialising gives.
    pub fn deserialise(&mut self, bytes: &[u8]) {
        self.set = bytes.chunks_exact(ENTRY_BYTES).map(deserialised).collect();
    }

    /// Fifty keys on each page, a line for each key with its size.
    pub fn pages(&self, text: &mut String) {
        text.clear();
        for (place, (key, measure)) in self.set.iter().enumerate() {
            if place % 50 == 0 {
                writeln!(text, "PAGE {:04}", place / 50 + 1).expect("a string takes any text");
            }
            let t = measure.length as i64 + i64::from(measure.correction);
            let half_points = (3 * t + 500) / 1_000;
            match half_points {
                0 => writeln!(text, "{key:016X}    -"),
                _ => writeln!(text, "{key:016X} {:4.1}", half_points as f64 / 2.0),
            }
            .expect("a string takes any text");
        }
    }

    /// A line for each key.
    pub fn listing(&self, text: &mut String) {
        text.clear();
        for key in self.set.keys() {
            writeln!(text, "key {key:016X}").expect("a string takes any text");
        }
    }
}
