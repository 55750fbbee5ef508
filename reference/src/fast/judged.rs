//! What is known of a sound table once it is judged.

use super::finder::Finder;
use super::image::Records;
use super::node::Node;
use super::record::*;
use super::stored::Stored;
use crate::calls::LookUpReply;

/// A node to be looked at: its number, and the interval that its key must be
/// in, above `low` and up to `high`.
#[derive(Clone, Copy, Default)]
pub struct Visit {
    pub number: u16,
    pub low: u64,
    pub high: u64,
}

/// What judging finds out about a sound table.
pub struct Judged {
    pub salt: u64,
    /// By number, which rises with the slots; first the one for no node.
    pub nodes: Vec<Node>,
    pub finder: Finder,
    /// Numbers of the left and the right child.
    pub children: Vec<[u16; 2]>,
    /// The root's number; `NONE` when there are no keys.
    pub root: u16,
    /// All nodes, each parent before its children.
    pub visits: Vec<Visit>,
}

impl Records for Judged {
    #[inline(always)]
    fn record(&self, number: u16) -> Record {
        self.nodes[number as usize].record()
    }
}

impl Judged {
    /// The number of a key; none when absent. Zero has the number `NONE`.
    #[inline(always)]
    pub fn find(&self, key: u64) -> Option<u16> {
        self.finder
            .find(key, |number| self.nodes[number as usize].key)
    }

    /// The root's key; zero when there are no keys.
    pub fn root_key(&self) -> u64 {
        self.nodes[self.root as usize].key
    }

    /// Numbers a new key, which is in no slot.
    pub fn add(&mut self, key: u64, measure: Stored) -> u16 {
        let number = self.nodes.len() as u16;
        self.nodes.push(Node::unplaced(key, measure, self.salt));
        self.children.push([NONE; 2]);
        number
    }

    /// How many keys.
    pub fn number(&self) -> usize {
        self.nodes.len() - 1
    }

    /// What a lookup says, with the nodes' words from `records`.
    #[inline(always)]
    pub fn look_up(&self, records: &impl Records, key: u64) -> LookUpReply {
        let k = records.record(self.root)[RANK];
        let (mut at, mut last_level) = (self.root, None);
        let mut reply = LookUpReply::default();
        while at != NONE {
            // Levels fall on the way down, so that no block is met twice.
            let here = records.record(at);
            let this_level = Some(level(here[RANK], k));
            reply.blocks += (this_level != last_level) as u64;
            last_level = this_level;
            if key == here[KEY] {
                let [_, _, _, leader, rank, count, length, correction] = here;
                let stored = Stored {
                    length: length as u16,
                    correction: correction as u16,
                };
                return LookUpReply {
                    held: true,
                    rank,
                    count,
                    leader,
                    measure: stored.measure(),
                    ..reply
                };
            }
            let [left, right] = self.children[at as usize];
            at = if key < here[KEY] { left } else { right };
        }
        reply
    }

    /// The least key that is not below the number; none if there is none.
    pub fn least_from(&self, low: u64) -> Option<u64> {
        let (mut least, mut at) = (None, self.root as usize);
        while at != NONE as usize {
            let key = self.nodes[at].key;
            let [left, right] = self.children[at];
            if key >= low {
                least = Some(key);
            }
            at = if key >= low { left } else { right } as usize;
        }
        least
    }

    /// Fills the output with the keys from `low` on, rising; there are enough.
    /// The way of the keys themselves is the shorter one for few, the order of
    /// all keys for many.
    pub fn write_keys(&self, low: u64, output: &mut [u64]) {
        if 4 * output.len() < self.number() {
            return self.write_few(low, output);
        }
        let rising = self.rising();
        let keys = rising.iter().map(|&number| self.nodes[number as usize].key);
        let from = keys.skip_while(|&key| key < low);
        output
            .iter_mut()
            .zip(from)
            .for_each(|(word, key)| *word = key);
    }

    fn write_few(&self, low: u64, output: &mut [u64]) {
        let mut above = vec![];
        let mut at = self.root as usize;
        for word in output {
            while at != NONE as usize {
                let [left, right] = self.children[at];
                if self.nodes[at].key < low {
                    at = right as usize;
                } else {
                    above.push(at);
                    at = left as usize;
                }
            }
            if let Some(least) = above.pop() {
                *word = self.nodes[least].key;
                at = self.children[least][1] as usize;
            }
        }
    }

    /// All numbers by rising key: a node's place among the rising keys follows
    /// from the numbers of nodes below others.
    pub fn rising(&self) -> Vec<u16> {
        let down = || self.visits.iter().map(|visit| visit.number as usize);
        let mut size = vec![0u16; self.nodes.len()];
        for at in down().rev() {
            let [left, right] = self.children[at];
            size[at] = 1 + size[left as usize] + size[right as usize];
        }
        let mut rising = vec![0; self.number()];
        // How many keys are less than all of a node's subtree.
        let mut lower = vec![0u16; self.nodes.len()];
        for at in down() {
            let [left, right] = self.children[at].map(usize::from);
            let place = lower[at] + size[left];
            rising[place as usize] = at as u16;
            lower[left] = lower[at];
            lower[right] = place + 1;
        }
        rising
    }
}
