//! The records of a table's slots, and what a node's rank, count and leader
//! follow from.

use crate::priority::{priority, Entry};
use crate::table::{HEADER_WORDS, SALT_WORD, SLOT_WORDS};
use crate::MOST_SLOTS;
use std::slice;

/// One slot: "key, left, right, leader, rank, count", and "these two words after
/// count", the length and the stored correction.
pub type Record = [u64; SLOT_WORDS];

/// "An empty slot is all zeros."
pub const EMPTY: Record = [0; SLOT_WORDS];

pub const KEY: usize = 0;
pub const LEFT: usize = 1;
pub const RIGHT: usize = 2;
pub const LEADER: usize = 3;
pub const RANK: usize = 4;
pub const COUNT: usize = 5;
pub const LENGTH: usize = 6;
pub const CORRECTION: usize = 7;

/// "Words 0 to 2: α, n, root key"; the salt "in a new word after the root key".
pub const ORDER: usize = 0;
pub const NUMBER: usize = 1;
pub const ROOT: usize = 2;
pub const SALT: usize = SALT_WORD;

/// Nodes are named by numbers from 1 on. This one stands for no node: it has
/// key, rank and count zero, so that it need not be told apart.
pub const NONE: u16 = 0;

/// M, when the length is that of a table.
pub fn slots_of_length(words: usize) -> Option<usize> {
    let slots = words.checked_sub(HEADER_WORDS)? / SLOT_WORDS;
    let exact = words == HEADER_WORDS + SLOT_WORDS * slots;
    (exact && (1..=MOST_SLOTS).contains(&slots)).then_some(slots)
}

/// The slots of a table whose length was tested.
pub fn slots(table: &[u64]) -> &[Record] {
    let words = &table[HEADER_WORDS..];
    // SAFETY: a record is so many words in a row.
    unsafe { slice::from_raw_parts(words.as_ptr().cast(), words.len() / SLOT_WORDS) }
}

pub fn slots_mut(table: &mut [u64]) -> &mut [Record] {
    let words = &mut table[HEADER_WORDS..];
    // SAFETY: as above.
    unsafe { slice::from_raw_parts_mut(words.as_mut_ptr().cast(), words.len() / SLOT_WORDS) }
}

/// Rank and count of a node from those of its children, (0, 0) for no child.
///
/// A node is never of lower rank than a node below it. With r the highest rank
/// of its children and c the number of L(r)'s keys in its subtree, it is in
/// L(r+1) just when c reaches α or it is the root and not alone; there it stands
/// alone in its subtree, so that it goes no higher.
#[inline(always)]
pub fn rank_and_count(
    order: u64,
    is_root: bool,
    left: (u64, u64),
    right: (u64, u64),
) -> (u64, u64) {
    let highest = left.0.max(right.0);
    let at_highest = |child: (u64, u64)| if child.0 == highest { child.1 } else { 0 };
    // A child's words may be anything; wrong ones fail at the child itself.
    let together = at_highest(left)
        .wrapping_add(at_highest(right))
        .wrapping_add(1);
    if (together >= order) | (is_root & (together > 1)) {
        (highest.wrapping_add(1), 1)
    } else {
        (highest, together)
    }
}

/// The leader of a child: the parent if it is of higher rank, else the parent's
/// own leader, being of the same rank.
#[inline(always)]
pub fn leader_below<T>(parent: (T, u64), parents_leader: T, rank: u64) -> T {
    if parent.1 > rank {
        parent.0
    } else {
        parents_leader
    }
}

/// The level of the block that holds the node, k being the root's rank: the
/// root's block holds "the root and all keys of rank k−1", any other "the keys
/// of rank i−1".
#[inline(always)]
pub fn level(rank: u64, k: u64) -> u64 {
    k.min(rank + 1)
}

/// "The priority of k, in its home too, becomes P of the exclusive or of k and the salt."
#[inline(always)]
pub fn salted_priority(key: u64, salt: u64) -> u64 {
    priority(key ^ salt)
}

/// Whether entry `a` outranks entry `b`, of different keys.
#[inline(always)]
pub fn outranks(a: Entry, b: Entry) -> bool {
    (a.priority > b.priority) | ((a.priority == b.priority) & (a.key < b.key))
}
