//! Rank, count and leader of every key: by definition, and a faster form.

use crate::priority::Entry;
use crate::treap::{self, Treap};
use crate::LITERAL_LIMIT;

/// What the table says of one key: "key, left, right, leader, rank, count.
/// Links are keys."
#[derive(Clone, Copy, Debug, PartialEq, Eq)]
pub struct Node {
    pub key: u64,
    pub left: u64,
    pub right: u64,
    pub leader: u64,
    pub rank: u64,
    pub count: u64,
}

/// All nodes, rising by key, with the order and the root's key (zero if none).
#[derive(Clone, Debug, PartialEq, Eq)]
pub struct Shape {
    pub order: u64,
    pub root: u64,
    pub nodes: Vec<Node>,
}

impl Shape {
    pub fn node(&self, key: u64) -> Option<&Node> {
        let i = self.nodes.binary_search_by_key(&key, |node| node.key);
        i.ok().map(|i| &self.nodes[i])
    }

    /// The root's rank k; none when there are no keys.
    pub fn root_rank(&self) -> Option<u64> {
        self.node(self.root).map(|root| root.rank)
    }

    /// The keys that a lookup compares on its way down, by the links.
    pub fn path(&self, key: u64) -> Vec<u64> {
        let mut compared = vec![];
        let mut at = self.node(self.root);
        while let Some(node) = at {
            compared.push(node.key);
            if key == node.key {
                break;
            }
            at = self.node(if key < node.key {
                node.left
            } else {
                node.right
            });
        }
        compared
    }
}

/// The shape for an order and a rising list of keys.
pub fn shape(order: u64, rising: &[Entry]) -> Shape {
    if rising.len() <= LITERAL_LIMIT {
        shape_by_definition(order, rising)
    } else {
        shape_on_one_treap(order, rising)
    }
}

// ---------------------------------------------------------------------------
// By definition

/// L0, L1, ... up to the last that is not empty (for no keys, L0 alone).
pub fn levels(order: u64, rising: &[Entry]) -> Vec<Vec<Entry>> {
    // "L0 is all keys."
    let mut all = vec![rising.to_vec()];
    loop {
        let next = next_level(order, &all[all.len() - 1]);
        if next.is_empty() {
            return all;
        }
        all.push(next);
    }
}

/// "If L(i−1) has more than one key, Li is the root with those keys of the
/// treap on L(i−1) whose subtree there, themselves counted, has at least α
/// keys. Otherwise Li is empty."
fn next_level(order: u64, level: &[Entry]) -> Vec<Entry> {
    if level.len() <= 1 {
        return vec![];
    }
    let there = treap::treap(level);
    let is_leader =
        |key| key == treap::root_key(&there) || treap::size(treap::subtree(&there, key)) >= order;
    level.iter().copied().filter(|e| is_leader(e.key)).collect()
}

/// Whether the key is in Li; a level past the list is empty.
fn in_level(levels: &[Vec<Entry>], i: u64, key: u64) -> bool {
    levels
        .get(i as usize)
        .map_or(false, |level| level.iter().any(|e| e.key == key))
}

/// "rank(v) is the largest i with v in Li."
fn rank(levels: &[Vec<Entry>], key: u64) -> u64 {
    (0..levels.len() as u64)
        .filter(|&i| in_level(levels, i, key))
        .max()
        .unwrap()
}

/// "count(v) is how many keys of L(rank(v)) lie in v's subtree, v included."
fn count(levels: &[Vec<Entry>], treap: &Treap, key: u64) -> u64 {
    let level = rank(levels, key);
    treap::keys(treap::subtree(treap, key))
        .into_iter()
        .filter(|&u| in_level(levels, level, u))
        .count() as u64
}

/// "leader(v) is v's deepest ancestor in L(rank(v)+1); zero for the root."
fn leader(levels: &[Vec<Entry>], treap: &Treap, key: u64) -> u64 {
    let level = rank(levels, key) + 1;
    treap::path(treap, key)
        .into_iter()
        .rfind(|&u| in_level(levels, level, u))
        .unwrap_or(0)
}

/// The shape with every number taken straight from its definition.
pub fn shape_by_definition(order: u64, rising: &[Entry]) -> Shape {
    let treap = treap::treap(rising);
    let levels = levels(order, rising);
    let node = |key| {
        let below = treap::subtree(&treap, key).as_ref().unwrap();
        Node {
            key,
            left: treap::root_key(&below.left),
            right: treap::root_key(&below.right),
            leader: leader(&levels, &treap, key),
            rank: rank(&levels, key),
            count: count(&levels, &treap, key),
        }
    };
    Shape {
        order,
        root: treap::root_key(&treap),
        nodes: rising.iter().map(|e| node(e.key)).collect(),
    }
}

// ---------------------------------------------------------------------------
// The faster form, on one treap

/// The same shape from one treap: ranks and counts from the leaves up, leaders
/// from the root down. O(n · depth), all of it in the building of the treap.
///
/// A key is never of lower rank than a key below it, so with r the highest rank
/// of its children and c the number of L(r)'s keys in its subtree, it is in
/// L(r+1) just when c reaches α or it is the root; there it stands alone in its
/// subtree, so that it goes no higher.
pub fn shape_on_one_treap(order: u64, rising: &[Entry]) -> Shape {
    let treap = treap::treap(rising);
    let root = treap::root_key(&treap);
    let mut nodes = vec![];
    rank_and_count(order, root, &treap, &mut nodes);
    let mut shape = Shape { order, root, nodes };
    lead(&mut shape, root, 0);
    shape
}

/// Appends the subtree's nodes, rising, without leaders; gives rank and count
/// of its root, (0, 0) for none.
fn rank_and_count(order: u64, top: u64, treap: &Treap, nodes: &mut Vec<Node>) -> (u64, u64) {
    let root = match treap {
        Some(root) => root,
        None => return (0, 0),
    };
    let left = rank_and_count(order, top, &root.left, nodes);
    let place = nodes.len();
    nodes.push(Node {
        key: root.key,
        left: treap::root_key(&root.left),
        right: treap::root_key(&root.right),
        leader: 0,
        rank: 0,
        count: 0,
    });
    let right = rank_and_count(order, top, &root.right, nodes);
    let highest = left.0.max(right.0);
    let at_highest = |child: (u64, u64)| if child.0 == highest { child.1 } else { 0 };
    let together = 1 + at_highest(left) + at_highest(right);
    let rises = together >= order || (root.key == top && together > 1);
    let (rank, count) = if rises {
        (highest + 1, 1)
    } else {
        (highest, together)
    };
    nodes[place].rank = rank;
    nodes[place].count = count;
    (rank, count)
}

/// Sets the leaders in the subtree of the key: the parent if it is of higher
/// rank, else the parent's own leader, being of the same rank.
fn lead(shape: &mut Shape, key: u64, parent: u64) {
    let i = match shape.nodes.binary_search_by_key(&key, |node| node.key) {
        Ok(i) => i,
        Err(_) => return,
    };
    shape.nodes[i].leader = match shape.node(parent) {
        None => 0,
        Some(above) if above.rank > shape.nodes[i].rank => parent,
        Some(above) => above.leader,
    };
    let (left, right) = (shape.nodes[i].left, shape.nodes[i].right);
    lead(shape, left, key);
    lead(shape, right, key);
}
