//! Random numbers, measures, salts and sets for the tests, and what several of them use.
#![allow(dead_code)]

pub mod forms;

use reference::depths::keys_at;
use reference::measure::Measure;
use reference::priority::TIES;
use reference::random::splitmix;
use reference::{Contents, MOST_SLOTS};
use std::collections::BTreeSet;
use std::ops::Range;

/// A state of the generator.
pub struct Random(pub u64);

impl Random {
    pub fn next(&mut self) -> u64 {
        splitmix(&mut self.0)
    }

    pub fn below(&mut self, bound: u64) -> u64 {
        self.next() % bound
    }

    /// A key: often small, sometimes any, the greatest, or one of a real tie.
    pub fn key(&mut self, small: u64) -> u64 {
        match self.below(20) {
            0 => u64::MAX,
            1 => self.next().max(1),
            2 | 3 => TIES[self.below(8) as usize].0,
            4 | 5 => TIES[self.below(8) as usize].1,
            _ => 1 + self.below(small),
        }
    }

    /// A rising list of up to `most` keys.
    pub fn keys(&mut self, most: u64) -> Vec<u64> {
        let number = self.below(most + 1);
        let mut set = BTreeSet::new();
        while (set.len() as u64) < number {
            set.insert(self.key(2 * most + 1));
        }
        set.into_iter().collect()
    }

    /// A rising list of any keys, as many as the longest table has slots.
    pub fn most_keys(&mut self) -> Vec<u64> {
        let mut set = BTreeSet::new();
        while set.len() < MOST_SLOTS {
            set.insert(self.next().max(1));
        }
        set.into_iter().collect()
    }

    /// The measure of a measured key, at an end of the rules now and then.
    pub fn measured(&mut self) -> Measure {
        let length = match self.below(8) {
            0 => 10_000,
            1 => 40_000,
            _ => 10_000 + self.below(30_001),
        };
        let correction = match self.below(8) {
            0 => -5_000,
            1 => 5_000,
            2 => 0,
            _ => self.below(10_001) as i32 - 5_000,
        };
        Measure { length, correction }
    }

    /// A right measure.
    pub fn measure(&mut self) -> Measure {
        match self.below(2) {
            0 => Measure::NONE,
            _ => self.measured(),
        }
    }

    /// A measure that is outside the rules.
    pub fn wrong_measure(&mut self) -> Measure {
        WRONG[self.below(WRONG.len() as u64) as usize]
    }

    /// A measure, outside the rules now and then.
    pub fn any_measure(&mut self) -> Measure {
        match self.below(6) {
            0 => self.wrong_measure(),
            _ => self.measure(),
        }
    }

    /// A salt: none, an end, one of the keys itself, or any.
    pub fn salt(&mut self, keys: &[u64]) -> u64 {
        match self.below(3) {
            0 => SALTS[self.below(SALTS.len() as u64) as usize],
            1 if !keys.is_empty() => keys[self.below(keys.len() as u64) as usize],
            _ => self.next(),
        }
    }

    /// An order and rising keys under some salt: none of them measured, all, or some.
    pub fn contents(&mut self, order: u64, keys: &[u64]) -> Contents {
        let salt = self.salt(keys);
        let kind = self.below(3);
        let mut contents = Contents::unmeasured(order, keys).salted(salt);
        for measure in contents.set.values_mut() {
            *measure = match kind {
                0 => Measure::NONE,
                1 => self.measured(),
                _ => self.measure(),
            };
        }
        contents
    }

    pub fn shuffle<T>(&mut self, list: &mut [T]) {
        for i in (1..list.len()).rev() {
            list.swap(i, self.below(i as u64 + 1) as usize);
        }
    }
}

/// No salt, the least, one of the highest bit alone, and the greatest.
pub const SALTS: [u64; 4] = [0, 1, 1 << 63, u64::MAX];

/// Measures outside the rules: each length and each correction that is next to one
/// within them, those that would be within if they were cut to fewer bits, and a
/// correction left over where the length is 0.
pub const WRONG: [Measure; 18] = [
    Measure::new(9_999, 0),
    Measure::new(40_001, 0),
    Measure::new(1, 0),
    Measure::new(1, 1),
    Measure::new(65_536 + 10_000, 0),
    Measure::new((1 << 32) + 25_000, 0),
    Measure::new(1 << 32, 0),
    Measure::new(1 << 63, 0),
    Measure::new(u64::MAX, 0),
    Measure::new(10_000, -5_001),
    Measure::new(40_000, 5_001),
    Measure::new(25_000, i32::MIN),
    Measure::new(25_000, i32::MAX),
    Measure::new(25_000, 65_536),
    Measure::new(0, 1),
    Measure::new(0, -1),
    Measure::new(0, -5_000),
    Measure::new(0, i32::MIN),
];

/// Every order in which the numbers can stand.
pub fn permutations(rest: &[u64]) -> Vec<Vec<u64>> {
    if rest.is_empty() {
        return vec![vec![]];
    }
    let mut all = vec![];
    for (i, &first) in rest.iter().enumerate() {
        let others = [&rest[..i], &rest[i + 1..]].concat();
        for tail in permutations(&others) {
            all.push([vec![first], tail].concat());
        }
    }
    all
}

/// Rising keys whose treap is a chain, as many as a table has slots; the first of them
/// are one too. The least key is the root, the greatest stands deepest.
pub fn falling_priorities() -> Vec<u64> {
    keys_at(0, &Vec::from_iter(0..MOST_SLOTS))
}

/// The same with the greatest key as the root, and the least deepest.
pub fn rising_priorities() -> Vec<u64> {
    keys_at(0, &Vec::from_iter((0..MOST_SLOTS).rev()))
}

/// Where an image has the bytes of its salt: nowhere if that is zero.
pub fn salt_bytes(image: &[u8]) -> Range<usize> {
    match &image[..2] {
        b"LS" => 15..23,
        mark => {
            assert_eq!(mark, b"LH");
            15..15
        }
    }
}

/// Where an image has the bytes of measures.
pub fn measure_bytes(image: &[u8]) -> Vec<usize> {
    let (mut places, mut at) = (vec![], salt_bytes(image).end);
    while at < image.len() {
        at += match &image[at..at + 2] {
            b"LB" => 14,
            b"LN" => 30,
            b"LM" => {
                places.extend(at + 30..at + 36);
                36
            }
            mark => panic!("no record has the mark {mark:?}"),
        };
    }
    places
}
