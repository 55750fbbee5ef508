//! The second program: the index of document 01 with the load, the batch, the
//! measures, the sizes, the pages, the promised ceiling, the fill and the salts of
//! document 02, written from these documents alone. Slow and literal; it is there to be
//! compared with.
//!
//! The priority is a parameter of every definition, so that the document's
//! examples, which write their own priorities, can be computed too.

pub mod batch;
pub mod before_salts;
pub mod blocks;
pub mod calls;
pub mod ceiling;
pub mod depths;
pub mod fast;
pub mod image;
pub mod listing;
pub mod load;
pub mod measure;
pub mod pages;
pub mod points;
pub mod priority;
pub mod program;
pub mod random;
pub mod shape;
pub mod table;
pub mod treap;

use measure::Measure;
use std::collections::BTreeMap;

/// "A set, the book's too, is now one of keys with their measures."
pub type Set = BTreeMap<u64, Measure>;

/// An order, a salt and a set: "the book also keeps the salt".
#[derive(Clone, Debug, PartialEq, Eq)]
pub struct Contents {
    pub order: u64,
    pub salt: u64,
    pub set: Set,
}

impl Contents {
    /// An order, the salt zero and keys of which none is measured.
    pub fn unmeasured(order: u64, keys: &[u64]) -> Contents {
        let set = keys.iter().map(|&key| (key, Measure::NONE)).collect();
        let salt = 0;
        Contents { order, salt, set }
    }

    /// The same order and set under another salt.
    pub fn salted(self, salt: u64) -> Contents {
        Contents { salt, ..self }
    }

    /// The keys, rising.
    pub fn keys(&self) -> Vec<u64> {
        self.set.keys().copied().collect()
    }

    /// Their lengths.
    pub fn lengths(&self) -> Vec<u64> {
        self.set.values().map(|measure| measure.length).collect()
    }

    /// Their corrections.
    pub fn corrections(&self) -> Vec<i32> {
        let measures = self.set.values();
        measures.map(|measure| measure.correction).collect()
    }
}

/// "The order α is 3 to 255."
pub fn is_order(order: u64) -> bool {
    (3..=255).contains(&order)
}

/// "A table has M slots, M from 1 to 4,096"
pub const MOST_SLOTS: usize = 4096;

/// Above this many keys the faster forms are used instead of the literal ones.
pub const LITERAL_LIMIT: usize = 64;
