//! What is known of one key of a table.

use super::home::Homes;
use super::record::{salted_priority, Record};
use super::stored::Stored;
use crate::priority::Entry;

/// A key's words, its priority, its slot, and how many slots it was driven on
/// from its home, in one line of the cache.
#[derive(Clone, Copy, Default)]
#[repr(align(64))]
pub struct Node {
    pub key: u64,
    pub priority: u64,
    pub left: u64,
    pub right: u64,
    pub leader: u64,
    pub rank: u64,
    pub count: u64,
    pub slot: u16,
    pub driven: u16,
    pub measure: Stored,
}

impl Node {
    /// A key that is in no slot yet.
    #[inline(always)]
    pub fn unplaced(key: u64, measure: Stored, salt: u64) -> Node {
        Node {
            key,
            priority: salted_priority(key, salt),
            measure,
            ..Node::default()
        }
    }

    /// The key of a slot whose measure is right.
    #[inline(always)]
    pub fn new(record: &Record, slot: usize, homes: Homes, salt: u64) -> Node {
        let [key, left, right, leader, rank, count, length, correction] = *record;
        let priority = salted_priority(key, salt);
        let driven = homes.driven(priority, slot) as u16;
        let measure = Stored {
            length: length as u16,
            correction: correction as u16,
        };
        Node {
            key,
            priority,
            left,
            right,
            leader,
            rank,
            count,
            slot: slot as u16,
            driven,
            measure,
        }
    }

    #[inline(always)]
    pub fn entry(&self) -> Entry {
        Entry {
            key: self.key,
            priority: self.priority,
        }
    }

    /// The words that the key had in its slot.
    #[inline(always)]
    pub fn record(&self) -> Record {
        [
            self.key,
            self.left,
            self.right,
            self.leader,
            self.rank,
            self.count,
            self.measure.length.into(),
            self.measure.correction.into(),
        ]
    }
}
