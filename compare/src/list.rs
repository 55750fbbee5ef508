//! The three lists of a build.

use crate::call::short;
use reference::Contents;
use std::fmt;

/// Keys, and a length and a correction for each; or any other lists.
#[derive(Clone, Default, PartialEq, Eq)]
pub struct List {
    pub keys: Vec<u64>,
    pub lengths: Vec<u64>,
    pub corrections: Vec<i32>,
}

impl List {
    /// The keys, rising or not, of which none is measured.
    pub fn unmeasured(keys: &[u64]) -> List {
        List {
            keys: keys.to_vec(),
            lengths: vec![0; keys.len()],
            corrections: vec![0; keys.len()],
        }
    }

    pub fn of(contents: &Contents) -> List {
        List {
            keys: contents.keys(),
            lengths: contents.lengths(),
            corrections: contents.corrections(),
        }
    }
}

/// The lists in one line, long ones cut short.
impl fmt::Debug for List {
    fn fmt(&self, out: &mut fmt::Formatter) -> fmt::Result {
        write!(
            out,
            "keys {}, lengths {}, corrections {}",
            short(&self.keys),
            short(&self.lengths),
            short(&self.corrections)
        )
    }
}
