//! Whether a table is sound, without making it anew: the words of a sound table
//! prove themselves. Every key stands where placing would put it with a measure
//! within the rules, and from the root down every node has the links, leader, rank
//! and count that follow from its neighbours'.

use super::finder::Finder;
use super::home::Homes;
use super::judged::{Judged, Visit};
use super::node::Node;
use super::placed::in_place;
use super::record::*;
use super::stored::are_right;
use crate::is_order;

/// Judges a table of right length; none when it is not sound.
pub fn judge(table: &[u64]) -> Option<Judged> {
    let slots = slots(table);
    if !is_order(table[ORDER]) {
        return None;
    }
    let mut judged = collect(slots, table[NUMBER], table[SALT])?;
    let right = in_place(&judged.nodes[1..], slots.len())
        && judged.hangs_together(table[ORDER], table[ROOT]);
    right.then_some(judged)
}

/// Reads all slots: the nodes, if the empty slots are all zeros, the measures right
/// and the keys as many as the header says.
fn collect(slots: &[Record], number: u64, salt: u64) -> Option<Judged> {
    let occupied = occupied(slots)?;
    if occupied.len() as u64 != number {
        return None;
    }
    let homes = Homes::new(slots.len());
    let mut finder = Finder::for_keys(occupied.len() + 1);
    let mut nodes = Vec::with_capacity(occupied.len() + 2);
    nodes.push(Node::default());
    nodes.extend(
        occupied
            .iter()
            .map(|&slot| Node::new(&slots[slot as usize], slot.into(), homes, salt)),
    );
    for (number, node) in (0..).zip(&nodes).skip(1) {
        finder.add(node.key, number);
    }
    let children = vec![[NONE; 2]; nodes.len()];
    Some(Judged {
        salt,
        nodes,
        finder,
        children,
        root: NONE,
        visits: vec![],
    })
}

/// The slots that hold a key, if all of these have a right measure and the others
/// are all zeros.
fn occupied(slots: &[Record]) -> Option<Vec<u16>> {
    let mut occupied = vec![0; slots.len()];
    let (mut number, mut is_right) = (0, true);
    for (slot, record) in slots.iter().enumerate() {
        occupied[number] = slot as u16;
        let is_held = record[KEY] != 0;
        number += is_held as usize;
        let rest = record[1..].iter().fold(0, |all, word| all | word);
        let measured = are_right(record[LENGTH], record[CORRECTION]);
        is_right &= if is_held { measured } else { rest == 0 };
    }
    occupied.truncate(number);
    is_right.then_some(occupied)
}

impl Judged {
    /// Whether the words of the nodes are right: each node's by those of its
    /// children, and all nodes are met from the root down.
    fn hangs_together(&mut self, order: u64, root: u64) -> bool {
        let root = match self.find(root) {
            Some(root) => root,
            None => return false,
        };
        self.root = root;
        let top = root as usize;
        self.nodes[top].leader == 0
            && self.find_children()
            && (1..self.nodes.len()).all(|number| self.is_right(order, number, number == top))
            && self.walk(root)
    }

    /// Finds the nodes that the links name; whether there are such.
    fn find_children(&mut self) -> bool {
        let Judged {
            nodes,
            finder,
            children,
            ..
        } = self;
        let find = |key| finder.find(key, |number| nodes[number as usize].key);
        nodes
            .iter()
            .zip(children)
            .all(|(node, found)| match (find(node.left), find(node.right)) {
                (Some(left), Some(right)) => {
                    *found = [left, right];
                    true
                }
                _ => false,
            })
    }

    /// Whether a node outranks its children, and its rank and count and their
    /// leaders are right if their ranks and counts and its leader are.
    #[inline(always)]
    fn is_right(&self, order: u64, number: usize, is_root: bool) -> bool {
        let node = &self.nodes[number];
        let [left, right] = self.children[number].map(|child| &self.nodes[child as usize]);
        let ranks = [left, right].map(|child| (child.rank, child.count));
        let expected = rank_and_count(order, is_root, ranks[0], ranks[1]);
        is_child(node, left) & is_child(node, right) & ((node.rank, node.count) == expected)
    }

    /// Whether all nodes are met from the root down, each key in the interval
    /// that its ancestors leave, so that none is met twice.
    fn walk(&mut self, root: u16) -> bool {
        let number = self.number();
        let mut visits = vec![Visit::default(); number + 2];
        visits[0] = Visit {
            number: root,
            low: 0,
            high: u64::MAX,
        };
        let mut known = (root != NONE) as usize;
        let mut met = 0;
        while met < known && known <= number {
            let Visit { number, low, high } = visits[met];
            let key = self.nodes[number as usize].key;
            if (key <= low) | (key > high) {
                return false;
            }
            let [left, right] = self.children[number as usize];
            visits[known] = Visit {
                number: left,
                low,
                high: key - 1,
            };
            known += (left != NONE) as usize;
            visits[known] = Visit {
                number: right,
                low: key,
                high,
            };
            known += (right != NONE) as usize;
            met += 1;
        }
        visits.truncate(number);
        self.visits = visits;
        met == number && known == number
    }
}

/// Whether a parent outranks its child and is or gives its leader. No node is a
/// child of any.
#[inline(always)]
fn is_child(parent: &Node, child: &Node) -> bool {
    let leader = leader_below((parent.key, parent.rank), parent.leader, child.rank);
    (child.key == 0) | (outranks(parent.entry(), child.entry()) & (child.leader == leader))
}
