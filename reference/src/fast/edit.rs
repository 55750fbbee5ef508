//! Insert and delete in place, in a table that was judged. Only the nodes on
//! the way to the key and below it get other links, ranks or counts; leaders
//! change there and in the blocks next to them; slots in the key's cluster.

use super::home::Homes;
use super::judged::Judged;
use super::node::Node;
use super::record::*;
use super::stored::Stored;
use crate::priority::Entry;

/// Inserts a key that is absent, with room for it. Gives its rank.
pub fn insert(table: &mut [u64], judged: &mut Judged, key: u64, measure: Stored) -> u64 {
    let new = judged.add(key, measure);
    insert_node(table, judged, new)
}

/// Inserts the key of that number, which is in no slot, with room for it. Gives
/// its rank.
pub fn insert_node(table: &mut [u64], judged: &mut Judged, new: u16) -> u64 {
    let mut edit = Edit::of(table, judged);
    edit.place(new);
    let touched = edit.link(new);
    edit.mend(&touched);
    let rank = edit.record(new)[RANK];
    table[NUMBER] += 1;
    table[ROOT] = judged.root_key();
    rank
}

/// Deletes the key of that number. Gives the rank it had.
pub fn delete(table: &mut [u64], judged: &mut Judged, number: u16) -> u64 {
    let mut edit = Edit::of(table, judged);
    let rank = edit.record(number)[RANK];
    let touched = edit.unlink(number);
    edit.mend(&touched);
    edit.close(edit.node(number).slot as usize);
    table[NUMBER] -= 1;
    table[ROOT] = judged.root_key();
    rank
}

struct Edit<'a> {
    order: u64,
    homes: Homes,
    slots: &'a mut [Record],
    judged: &'a mut Judged,
}

/// Where a subtree hangs: at the root, or left or right of a node.
#[derive(Clone, Copy)]
enum Hook {
    Root,
    Left(u16),
    Right(u16),
}

const LEFT_CHILD: usize = 0;
const RIGHT_CHILD: usize = 1;

impl<'a> Edit<'a> {
    fn of(table: &'a mut [u64], judged: &'a mut Judged) -> Edit<'a> {
        Edit {
            order: table[ORDER],
            homes: Homes::new(slots(table).len()),
            slots: slots_mut(table),
            judged,
        }
    }

    fn node(&self, number: u16) -> &Node {
        &self.judged.nodes[number as usize]
    }

    fn record(&self, number: u16) -> &Record {
        &self.slots[self.node(number).slot as usize]
    }

    fn record_mut(&mut self, number: u16) -> &mut Record {
        &mut self.slots[self.judged.nodes[number as usize].slot as usize]
    }

    fn children(&self, number: u16) -> [u16; 2] {
        self.judged.children[number as usize]
    }

    fn hang(&mut self, hook: Hook, number: u16) {
        match hook {
            Hook::Root => self.judged.root = number,
            Hook::Left(above) => self.judged.children[above as usize][LEFT_CHILD] = number,
            Hook::Right(above) => self.judged.children[above as usize][RIGHT_CHILD] = number,
        }
    }

    // -----------------------------------------------------------------------
    // Links

    /// The nodes on the way down to the key while `go_on` says so, and the
    /// subtree that it stopped at, with where that hangs.
    fn way_down(&self, key: u64, go_on: impl Fn(Entry) -> bool) -> (Vec<u16>, Hook, u16) {
        let (mut way, mut hook, mut at) = (vec![], Hook::Root, self.judged.root);
        while at != NONE && go_on(self.node(at).entry()) {
            way.push(at);
            let [left, right] = self.children(at);
            (hook, at) = match key < self.node(at).key {
                true => (Hook::Left(at), left),
                false => (Hook::Right(at), right),
            };
        }
        (way, hook, at)
    }

    /// Hangs a new node in: below the nodes on its way that outrank it, above
    /// the rest, which is split. Gives the nodes to mend, parents first.
    fn link(&mut self, new: u16) -> Vec<u16> {
        let entry = self.node(new).entry();
        let (mut touched, hook, mut at) = self.way_down(entry.key, |other| outranks(other, entry));
        self.hang(hook, new);
        touched.push(new);
        let (mut lesser, mut greater) = (Hook::Left(new), Hook::Right(new));
        while at != NONE {
            touched.push(at);
            let this = at;
            let [left, right] = self.children(this);
            if self.node(this).key < entry.key {
                self.hang(lesser, this);
                (lesser, at) = (Hook::Right(this), right);
            } else {
                self.hang(greater, this);
                (greater, at) = (Hook::Left(this), left);
            }
        }
        self.hang(lesser, NONE);
        self.hang(greater, NONE);
        touched
    }

    /// Takes a node out: its subtrees are merged in its place. Gives the nodes
    /// to mend, parents first.
    fn unlink(&mut self, number: u16) -> Vec<u16> {
        let key = self.node(number).key;
        let (mut touched, mut hook, _) = self.way_down(key, |other| other.key != key);
        let [mut lesser, mut greater] = self.children(number);
        while lesser != NONE && greater != NONE {
            let (low, high) = (lesser, greater);
            let (next, below) = if outranks(self.node(low).entry(), self.node(high).entry()) {
                lesser = self.children(low)[RIGHT_CHILD];
                (low, Hook::Right(low))
            } else {
                greater = self.children(high)[LEFT_CHILD];
                (high, Hook::Left(high))
            };
            self.hang(hook, next);
            touched.push(next);
            hook = below;
        }
        let rest = lesser.max(greater);
        self.hang(hook, rest);
        touched.extend((rest != NONE).then_some(rest));
        touched
    }

    // -----------------------------------------------------------------------
    // Words

    /// Writes the words of the nodes, parents first, that got other children or
    /// have such a node below them.
    fn mend(&mut self, touched: &[u16]) {
        for &number in touched.iter().rev() {
            self.mend_rank(number);
        }
        let root = self.judged.root;
        if root != NONE {
            self.lead(root, 0);
        }
        for &number in touched {
            let parent = *self.record(number);
            for child in self
                .children(number)
                .into_iter()
                .filter(|&child| child != NONE)
            {
                let rank = self.record(child)[RANK];
                self.lead(
                    child,
                    leader_below((parent[KEY], parent[RANK]), parent[LEADER], rank),
                );
            }
        }
    }

    /// Writes links, rank and count of a node whose children are right.
    fn mend_rank(&mut self, number: u16) {
        let read = |child: u16| match child {
            NONE => (0, (0, 0)),
            _ => {
                let below = self.record(child);
                (below[KEY], (below[RANK], below[COUNT]))
            }
        };
        let [left, right] = self.children(number).map(read);
        let is_root = number == self.judged.root;
        let (rank, count) = rank_and_count(self.order, is_root, left.1, right.1);
        let record = self.record_mut(number);
        record[LEFT] = left.0;
        record[RIGHT] = right.0;
        record[RANK] = rank;
        record[COUNT] = count;
    }

    /// Writes a node's leader; nodes below of the same rank have the same one.
    fn lead(&mut self, number: u16, leader: u64) {
        let mut rest = vec![number];
        while let Some(at) = rest.pop() {
            let record = self.record_mut(at);
            if record[LEADER] != leader {
                record[LEADER] = leader;
                let rank = record[RANK];
                let same = |&child: &u16| child != NONE && self.record(child)[RANK] == rank;
                rest.extend(self.children(at).iter().filter(|child| same(child)));
            }
        }
    }

    // -----------------------------------------------------------------------
    // Slots

    /// Places a key that is in no slot: from its home on, what it outranks gives
    /// way and goes on in its stead.
    fn place(&mut self, new: u16) {
        let (mut number, mut node) = (new, *self.node(new));
        let mut record = node.record();
        let mut slot = self.homes.home(node.priority);
        while self.slots[slot][KEY] != 0 {
            let other = self.judged.find(self.slots[slot][KEY]).expect("was judged");
            if outranks(node.entry(), self.node(other).entry()) {
                std::mem::swap(&mut self.slots[slot], &mut record);
                self.judged.nodes[number as usize].slot = slot as u16;
                (number, node) = (other, *self.node(other));
            }
            slot = self.next(slot);
        }
        self.slots[slot] = record;
        self.judged.nodes[number as usize].slot = slot as u16;
    }

    fn next(&self, slot: usize) -> usize {
        if slot + 1 < self.slots.len() {
            slot + 1
        } else {
            0
        }
    }

    /// Empties a slot and closes up: the next key that was driven past the hole
    /// goes there and leaves a hole of its own.
    fn close(&mut self, slot: usize) {
        let (mut hole, mut at, mut from_hole) = (slot, self.next(slot), 1);
        while at != slot && self.slots[at][KEY] != 0 {
            let priority = salted_priority(self.slots[at][KEY], self.judged.salt);
            if self.homes.driven(priority, at) >= from_hole {
                self.slots[hole] = self.slots[at];
                (hole, from_hole) = (at, 0);
            }
            (at, from_hole) = (self.next(at), from_hole + 1);
        }
        self.slots[hole] = EMPTY;
    }
}
