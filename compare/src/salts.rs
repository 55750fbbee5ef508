//! Salts, and orders and sets under them.

use crate::measures::random_set;
use crate::random::Random;
use reference::measure::Measure;
use reference::Contents;

/// No salt, the least, one of the highest bit alone, and the greatest.
pub const ENDS: [u64; 4] = [0, 1, 1 << 63, u64::MAX];

/// A salt that hangs on no keys: an end, one of the least keys, or any.
pub fn any(random: &mut Random) -> u64 {
    match random.below(4) {
        0 => 1 + random.below(20) as u64,
        1 => random.number(),
        _ => random.pick(&ENDS),
    }
}

/// A salt for the keys, one of them now and then.
pub fn for_keys(keys: &[u64], random: &mut Random) -> u64 {
    match keys {
        [_, ..] if random.once_in(4) => random.pick(keys),
        _ => any(random),
    }
}

/// An order and the keys, under some salt and measured or not.
pub fn contents(order: u64, keys: &[u64], random: &mut Random) -> Contents {
    let salt = for_keys(keys, random);
    contents_under(salt, order, keys, random)
}

/// The same under that salt.
pub fn contents_under(salt: u64, order: u64, keys: &[u64], random: &mut Random) -> Contents {
    let set = random_set(keys, random);
    Contents { order, salt, set }
}

/// An order, a salt and keys with these measures.
pub fn contents_of<const N: usize>(
    salt: u64,
    order: u64,
    entries: [(u64, Measure); N],
) -> Contents {
    let set = entries.into();
    Contents { order, salt, set }
}

#[cfg(test)]
mod tests {
    use super::*;
    use std::collections::BTreeSet;

    /// Each end, a held key and others are drawn.
    #[test]
    fn salts_of_every_kind_are_drawn() {
        let mut random = Random::new(9);
        let keys = [77, 1 << 40];
        let drawn: Vec<u64> = (0..1_000).map(|_| for_keys(&keys, &mut random)).collect();
        for salt in ENDS.into_iter().chain(keys) {
            assert!(drawn.iter().filter(|&&other| other == salt).count() > 50);
        }
        let others: BTreeSet<u64> = drawn.into_iter().filter(|&salt| salt > 20).collect();
        assert!(others.len() > 100);
        assert!((0..100).all(|_| for_keys(&[], &mut random) != 77));
    }
}
