//! Keys searched out for the places and priorities that they have under a salt.

pub use reference::depths::keys_at;
use reference::priority::{priority, salted, Entry, TIES};

/// Which way each key of a chain lies from the one above it.
#[derive(Clone, Copy, Debug, PartialEq, Eq)]
pub enum Chain {
    Right,
    Left,
    ToAndFro,
}

impl Chain {
    pub const ALL: [Chain; 3] = [Chain::Right, Chain::Left, Chain::ToAndFro];

    /// Rising keys whose treap under the salt is this chain.
    pub fn keys(self, salt: u64, number: usize) -> Vec<u64> {
        let place = |i: usize| match self {
            Chain::Right => i,
            Chain::Left => number - 1 - i,
            // From outside in: least, greatest, least but one, ..
            Chain::ToAndFro if 2 * i < number => 2 * i,
            Chain::ToAndFro => 2 * (number - 1 - i) + 1,
        };
        keys_at(salt, &(0..number).map(place).collect::<Vec<_>>())
    }

    /// The root and the deepest key of the chain that these keys are.
    pub fn ends(self, keys: &[u64]) -> [u64; 2] {
        let [first, last] = [keys[0], keys[keys.len() - 1]];
        match self {
            Chain::Right => [first, last],
            Chain::Left => [last, first],
            Chain::ToAndFro => [first, keys[keys.len() / 2]],
        }
    }
}

/// A home: so many slots, and one of them.
#[derive(Clone, Copy, Debug, PartialEq, Eq)]
pub struct Home {
    pub slots: usize,
    pub slot: usize,
}

impl Home {
    pub fn new(slots: usize, slot: usize) -> Home {
        Home { slots, slot }
    }

    /// The home of a key under a salt.
    pub fn of(salt: u64, key: u64, slots: usize) -> Home {
        let slot = entry(salt, key).home(slots);
        Home { slots, slot }
    }

    /// The slot that comes so many after it, slot 0 following the last.
    pub fn after(self, number: usize) -> Home {
        Home::new(self.slots, (self.slot + number) % self.slots)
    }

    /// The first keys after one, rising, that have this home under the salt.
    pub fn keys(self, salt: u64, after: u64, number: usize) -> Vec<u64> {
        let has_home = |key: &u64| Home::of(salt, *key, self.slots) == self;
        (after + 1..).filter(has_home).take(number).collect()
    }
}

pub fn outranks(salt: u64, a: u64, b: u64) -> bool {
    entry(salt, a).outranks(entry(salt, b))
}

fn entry(salt: u64, key: u64) -> Entry {
    let priority = salted(&priority, salt)(key);
    Entry { key, priority }
}

/// The pair of keys that have equal priorities under the salt, as these two have without
/// one: the lesser first, though of the two without a salt it may be the greater.
pub fn tie_under(salt: u64, (a, b): (u64, u64)) -> (u64, u64) {
    let (a, b) = (a ^ salt, b ^ salt);
    (a.min(b), a.max(b))
}

/// The known pairs of keys that have equal priorities under the salt.
pub fn ties(salt: u64) -> [(u64, u64); 8] {
    TIES.map(|pair| tie_under(salt, pair))
}

/// Every order of the places 0 to `number` − 1.
pub fn permutations(number: usize) -> Vec<Vec<usize>> {
    if number == 0 {
        return vec![vec![]];
    }
    let mut all = vec![];
    for shorter in permutations(number - 1) {
        for place in 0..number {
            let mut longer = shorter.clone();
            longer.insert(place, number - 1);
            all.push(longer);
        }
    }
    all
}

/// Every part of a list, in the list's order.
pub fn parts(list: &[u64]) -> Vec<Vec<u64>> {
    let part = |bits: usize| {
        let chosen = list.iter().enumerate().filter(|(i, _)| bits >> i & 1 == 1);
        chosen.map(|(_, &key)| key).collect()
    };
    (0..1 << list.len()).map(part).collect()
}
