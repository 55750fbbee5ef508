//! Keys to look up together, rising: those of a table, those next to them, and
//! any others.

use crate::random::Random;
use std::collections::BTreeSet;

/// Each key, the one below and the one above; zero left out.
pub fn with_neighbours(keys: &[u64]) -> Vec<u64> {
    let about = |key: &u64| [key - 1, *key, key.saturating_add(1)];
    let set: BTreeSet<u64> = keys.iter().flat_map(about).collect();
    set.into_iter().filter(|&key| key != 0).collect()
}

/// The numbers next to the keys that are none of them.
pub fn neighbours_only(keys: &[u64]) -> Vec<u64> {
    let mut about = with_neighbours(keys);
    about.retain(|key| keys.binary_search(key).is_err());
    about
}

/// Each of the keys once in so many times.
pub fn some_of(keys: &[u64], times: usize, random: &mut Random) -> Vec<u64> {
    let mut some = keys.to_vec();
    some.retain(|_| random.once_in(times));
    some
}

/// A batch for a table that holds these keys.
pub fn random_batch(held: &[u64], random: &mut Random) -> Vec<u64> {
    let times = random.pick(&[2, 3, 10, 50]);
    match random.below(9) {
        0 => vec![],
        1 => vec![random.key(20)],
        2 => some_of(held, held.len().max(1), random),
        3 => held.to_vec(),
        4 => with_neighbours(&some_of(held, times, random)),
        5 => neighbours_only(&some_of(held, times, random)),
        6 => {
            let number = random.below(300);
            random.keys(number)
        }
        7 => {
            let mut keys = some_of(held, times, random);
            keys.retain(|&key| key != u64::MAX);
            keys.push(u64::MAX);
            keys
        }
        _ => some_of(held, times, random),
    }
}

#[cfg(test)]
mod tests {
    use super::*;

    #[test]
    fn neighbours_rise_and_have_no_zero() {
        let keys = [1, 2, 9, u64::MAX];
        let below = u64::MAX - 1;
        assert_eq!(with_neighbours(&keys), [1, 2, 3, 8, 9, 10, below, u64::MAX]);
        assert_eq!(neighbours_only(&keys), [3, 8, 10, below]);
    }

    #[test]
    fn every_batch_rises_and_has_no_zero() {
        let mut random = Random::new(5);
        let mut lengths = BTreeSet::new();
        for _ in 0..1_000 {
            let number = random.below(100);
            let held = random.keys(number);
            let batch = random_batch(&held, &mut random);
            assert!(batch.windows(2).all(|pair| pair[0] < pair[1]));
            assert!(!batch.contains(&0));
            lengths.insert(batch.len());
        }
        assert!(lengths.len() > 50);
    }
}
