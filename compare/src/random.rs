//! A small generator of random numbers, the same on every machine.

use reference::priority::TIES;
use reference::random::splitmix;
use std::collections::BTreeSet;

/// A state of the generator.
pub struct Random(u64);

impl Random {
    pub fn new(seed: u64) -> Random {
        Random(seed)
    }

    /// The generator of one case: another for every section, seed and case.
    pub fn of_case(section: &str, seed: u64, case: u64) -> Random {
        let letters = section.bytes().map(u64::from);
        [seed, case]
            .into_iter()
            .chain(letters)
            .fold(Random(0), |state, part| {
                Random(Random(state.0 ^ part).number())
            })
    }

    /// Any number.
    pub fn number(&mut self) -> u64 {
        splitmix(&mut self.0)
    }

    pub fn below(&mut self, bound: usize) -> usize {
        (self.number() % bound as u64) as usize
    }

    /// True once in so many times.
    pub fn once_in(&mut self, times: usize) -> bool {
        self.below(times) == 0
    }

    pub fn pick<T: Copy>(&mut self, from: &[T]) -> T {
        from[self.below(from.len())]
    }

    pub fn shuffle<T>(&mut self, list: &mut [T]) {
        for i in (1..list.len()).rev() {
            list.swap(i, self.below(i + 1));
        }
    }

    /// An order, 3 to 255, small ones more often.
    pub fn order(&mut self) -> u64 {
        match self.below(4) {
            0 => 3 + self.below(253) as u64,
            1 => 3 + self.below(30) as u64,
            _ => 3 + self.below(5) as u64,
        }
    }

    /// A key: mostly one of 1 to `small`, else any, the least, the greatest, or
    /// one of two keys of equal priority.
    pub fn key(&mut self, small: usize) -> u64 {
        match self.below(20) {
            0 => 1,
            1 => u64::MAX,
            2 | 3 => self.number().max(1),
            4 => self.pick(&TIES).0,
            5 => self.pick(&TIES).1,
            _ => 1 + self.below(small) as u64,
        }
    }

    /// So many different keys, rising, as `key` gives them.
    pub fn keys(&mut self, number: usize) -> Vec<u64> {
        let mut set = BTreeSet::new();
        while set.len() < number {
            set.insert(self.key(2 * number + 3));
        }
        set.into_iter().collect()
    }

    /// How many keys to put into so many slots: often all or all but one.
    pub fn fill(&mut self, slots: usize) -> usize {
        match self.below(5) {
            0 => slots,
            1 => slots - 1,
            _ => self.below(slots + 1),
        }
    }
}
