//! The operations of a load, done one after another on a table that was set up
//! blank. What judging would find out is kept from each to the next, so that the
//! table is never judged.

use super::edit;
use super::finder::Finder;
use super::image::Records;
use super::judged::Judged;
use super::node::Node;
use super::record::*;
use super::stored::Stored;
use crate::calls::LookUpReply;
use crate::load::{Operation, GREATEST_KEY, NO_SALT};

/// The slot of a key that is absent.
const NOWHERE: u16 = u16::MAX;

/// Does the operations on a blank table. Their replies are dropped.
pub fn run(table: &mut [u64], operations: impl Iterator<Item = Operation>) {
    let mut load = Load {
        table,
        known: blank(),
    };
    for operation in operations {
        match operation {
            Operation::Insert(key) => load.insert(key as u16),
            Operation::Delete(key) => load.delete(key as u16),
            Operation::LookUp(key) => _ = load.look_up(key),
        }
    }
}

/// What is known of a blank table. Every key that a load can name has a node from
/// the beginning, whose number is the key, so that none is ever added. None of them
/// is measured. "Loads use salt zero".
fn blank() -> Judged {
    let keys = 1..=GREATEST_KEY;
    let absent = |key| Node {
        slot: NOWHERE,
        ..Node::unplaced(key, Stored::NONE, NO_SALT)
    };
    let mut nodes = vec![Node::default()];
    nodes.extend(keys.clone().map(absent));
    let mut finder = Finder::for_keys(nodes.len());
    keys.for_each(|key| finder.add(key, key as u16));
    Judged {
        salt: NO_SALT,
        children: vec![[NONE; 2]; nodes.len()],
        nodes,
        finder,
        root: NONE,
        visits: vec![],
    }
}

/// A table under a load: of what is known, links, slots and the root are right.
struct Load<'a> {
    table: &'a mut [u64],
    known: Judged,
}

/// The words that a held key has in its slot now; for no key, those of slot 0.
impl Records for Load<'_> {
    #[inline(always)]
    fn record(&self, number: u16) -> Record {
        slots(self.table)[self.slot(number) as usize]
    }
}

impl Load<'_> {
    fn slot(&self, number: u16) -> u16 {
        self.known.nodes[number as usize].slot
    }

    /// A held key and a full table turn it down.
    fn insert(&mut self, number: u16) {
        let is_full = self.table[NUMBER] == slots(self.table).len() as u64;
        if self.slot(number) == NOWHERE && !is_full {
            edit::insert_node(self.table, &mut self.known, number);
        }
    }

    /// An absent key turns it down.
    fn delete(&mut self, number: u16) {
        let slot = self.slot(number);
        if slot != NOWHERE {
            edit::delete(self.table, &mut self.known, number);
            self.known.nodes[number as usize].slot = NOWHERE;
            self.note_slots(slot as usize);
        }
    }

    fn look_up(&self, key: u64) -> LookUpReply {
        self.known.look_up(self, key)
    }

    /// Notes the slots of the keys that closed up: from there to the first empty
    /// slot, which there is after a delete.
    fn note_slots(&mut self, from: usize) {
        let slots = slots(self.table);
        let mut slot = from;
        while slots[slot][KEY] != 0 {
            let number = self.known.find(slots[slot][KEY]).expect("has a number");
            self.known.nodes[number as usize].slot = slot as u16;
            slot = (slot + 1) % slots.len();
        }
    }
}
