//! A table, and calls that it takes.
#![allow(dead_code)]

use compare::call::{Call, Place};
use compare::list::List;
use compare::tables::{image_of, listing_length, pages_length, sound_table};
use reference::measure::Measure;
use reference::Contents;

pub const KEYS: [u64; 5] = [3, 8, 20, 21, 40];

/// The table's salt; a key that is inserted is the same number.
pub const SALT: u64 = 22;

/// Some of the keys measured, 21 with a correction below zero.
pub fn contents() -> Contents {
    let measured = [(3, 40_000, 5_000), (21, 26_500, -120)];
    let mut contents = Contents::unmeasured(3, &KEYS).salted(SALT);
    for (key, length, correction) in measured {
        contents.set.insert(key, Measure::new(length, correction));
    }
    contents
}

pub fn table() -> Vec<u64> {
    sound_table(7, &contents())
}

fn list() -> List {
    List {
        keys: vec![1, 2],
        lengths: vec![10_000, 0],
        corrections: vec![-5_000, 0],
    }
}

/// One of each kind that is accepted, outputs longer than needed.
pub fn accepted_calls() -> [Call; 14] {
    let (image, room) = (image_of(&contents()), listing_length(&contents()) + 4);
    let (place, measure) = (Place::WHOLE, Measure::new(26_500, 0));
    [
        Call::SetUp { order: 9, salt: 77 },
        Call::Build {
            order: 4,
            salt: u64::MAX,
            list: list(),
        },
        Call::Insert {
            key: 22,
            measure: Measure::new(10_000, 17),
        },
        Call::Delete { key: 8 },
        Call::LookUp { key: 21 },
        Call::Range {
            low: 4,
            high: 30,
            room: 6,
        },
        Call::Step { place },
        Call::Write { room: 400 },
        Call::Read {
            image: image.clone(),
        },
        Call::List { image, room },
        Call::Load {
            order: 5,
            seed: 2,
            count: 30,
        },
        Call::LookUpBatch {
            keys: vec![3, 4, 21, u64::MAX],
        },
        Call::Points { measure },
        Call::Pages {
            room: pages_length(KEYS.len()) + 6,
        },
    ]
}
