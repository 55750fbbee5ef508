//! The tables that are timed: how many slots, which keys, every second one measured,
//! and some keys that are not held.

use crate::measures::Measures;
use crate::plain::Set;
use reference::priority::priority;
use reference::random::splitmix;
use std::collections::BTreeSet;

/// The order of every table.
pub const ORDER: u64 = 16;

/// How many keys a row takes in turn, so that no figure hangs on one key.
pub const TURNS: usize = 16;

/// How many keys a batch has.
pub const BATCH: usize = 300;

pub struct Case {
    pub name: String,
    pub slots: usize,
    /// The held keys, rising.
    pub keys: Vec<u64>,
    /// Their measures; every second key is measured.
    pub measures: Measures,
    /// Held keys to look up and to delete.
    pub held: Vec<u64>,
    /// Absent keys to look up and to insert.
    pub absent: Vec<u64>,
    /// Keys to look up together, rising.
    pub batch: Vec<u64>,
}

impl Case {
    fn new(name: String, slots: usize, keys: Vec<u64>, held: Vec<u64>, absent: Vec<u64>) -> Case {
        Case {
            name,
            slots,
            batch: batch(&keys),
            measures: Measures::of(keys.len(), 2),
            keys,
            held,
            absent,
        }
    }

    /// The held keys with these measures.
    pub fn set_with(&self, measures: &Measures) -> Set {
        self.keys.iter().copied().zip(measures.iter()).collect()
    }

    /// The set that the table holds.
    pub fn set(&self) -> Set {
        self.set_with(&self.measures)
    }
}

/// All cases, in the order of the report.
pub fn all() -> Vec<Case> {
    let mut cases: Vec<Case> = [64, 512, 2048, 4000, 4096]
        .map(|keys| random(4096, keys))
        .into();
    cases.push(random(64, 32));
    cases.push(chain());
    cases.push(one_home());
    cases.push(clusters());
    cases
}

/// Keys drawn at random.
pub fn random(slots: usize, number: usize) -> Case {
    let mut state = number as u64;
    let (keys, absent) = distinct(number, || splitmix(&mut state).max(1));
    let held = (0..TURNS).map(|turn| keys[turn * number / TURNS]).collect();
    let name = format!("M = {slots}, n = {number}");
    Case::new(name, slots, keys, held, absent)
}

/// A chain of 4,095 keys: rising keys with falling priorities, so that the treap
/// is a path. The range of priorities is cut into as many bands as keys are
/// wanted; going through the keys upward, the next one is the first whose
/// priority lies in the next lower band. The keys to insert are those that go on
/// with the chain; those to look up and delete stand at its end.
fn chain() -> Case {
    const LENGTH: usize = 4095;
    let bands = (LENGTH + TURNS) as u64;
    let width = u64::MAX / bands + 1;
    let mut keys: Vec<u64> = vec![];
    let mut candidates = 1..;
    for band in (0..bands).rev() {
        keys.extend(candidates.find(|&key| priority(key) / width == band));
    }
    let absent = keys.split_off(LENGTH);
    let held = keys[LENGTH - TURNS..].to_vec();
    let name = format!("M = 4096, a chain of n = {LENGTH}");
    Case::new(name, 4096, keys, held, absent)
}

/// 4,000 keys with one home, the middle slot; those to insert have it too.
fn one_home() -> Case {
    const SLOTS: usize = 4096;
    const NUMBER: usize = 4000;
    let mut state = 1;
    let home = |key: u64| priority(key) / 65_536 % SLOTS as u64;
    let (keys, absent) = distinct(NUMBER, || loop {
        let key = splitmix(&mut state);
        if key != 0 && home(key) == SLOTS as u64 / 2 {
            return key;
        }
    });
    let held = (0..TURNS).map(|turn| keys[turn * NUMBER / TURNS]).collect();
    let name = format!("M = {SLOTS}, one home for all n = {NUMBER}");
    Case::new(name, SLOTS, keys, held, absent)
}

/// 4,000 keys in 40 runs of 100 neighbours; those to insert are the next after a
/// run.
fn clusters() -> Case {
    const RUNS: usize = 40;
    const LENGTH: u64 = 100;
    let mut state = 1;
    let starts: BTreeSet<u64> = (0..RUNS).map(|_| splitmix(&mut state) >> 1 | 1).collect();
    let run = |&start: &u64| start..start + LENGTH;
    let keys: Vec<u64> = starts.iter().flat_map(run).collect();
    let number = keys.len();
    let held = (0..TURNS).map(|turn| keys[turn * number / TURNS]).collect();
    let absent = starts
        .iter()
        .map(|start| start + LENGTH)
        .take(TURNS)
        .collect();
    let name = format!("M = 4096, n = {number} in {RUNS} runs of {LENGTH}");
    Case::new(name, 4096, keys, held, absent)
}

/// The keys of a batch, rising. Half of them are held, or all that are held where
/// these are fewer, at equal distances; the others are next to held ones.
fn batch(keys: &[u64]) -> Vec<u64> {
    let (number, half) = (keys.len(), BATCH / 2);
    let held = half.min(number);
    let mut batch: BTreeSet<u64> = (0..held).map(|i| keys[i * number / held]).collect();
    let places = (0..half).map(|i| (2 * i + 1) * number / BATCH);
    let near = (1..).flat_map(|distance| places.clone().map(move |place| keys[place] + distance));
    for key in near.filter(|key| keys.binary_search(key).is_err()) {
        if batch.len() == BATCH {
            break;
        }
        batch.insert(key);
    }
    batch.into_iter().collect()
}

/// So many different keys, rising, and some more that are not among them.
fn distinct(number: usize, mut draw: impl FnMut() -> u64) -> (Vec<u64>, Vec<u64>) {
    let mut keys = BTreeSet::new();
    while keys.len() < number {
        keys.insert(draw());
    }
    let mut absent = BTreeSet::new();
    while absent.len() < TURNS {
        absent.extend(Some(draw()).filter(|key| !keys.contains(key)));
    }
    (keys.into_iter().collect(), absent.into_iter().collect())
}
