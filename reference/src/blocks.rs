//! Document 01, section "Blocks", with the fill of document 02, and the blocks that one
//! lookup or several meet.

use crate::shape::{Node, Shape};
use crate::LITERAL_LIMIT;
use std::cmp::Reverse;
use std::collections::{BTreeMap, BTreeSet};

/// Block (leader, level) with its keys, rising.
#[derive(Clone, Debug, PartialEq, Eq)]
pub struct Block {
    pub leader: u64,
    pub level: u64,
    pub keys: Vec<u64>,
}

/// The blocks "by falling level, then rising leader".
pub fn blocks(shape: &Shape) -> Vec<Block> {
    if shape.nodes.len() <= LITERAL_LIMIT {
        blocks_by_definition(shape)
    } else {
        blocks_by_name(shape)
    }
}

/// "the number of different blocks that hold the keys it compares on its way
/// down"
pub fn blocks_met(shape: &Shape, key: u64) -> u64 {
    if shape.nodes.len() <= LITERAL_LIMIT {
        blocks_met_by_definition(shape, key)
    } else {
        blocks_met_by_name(shape, key)
    }
}

/// Document 02, N2: "the number of different blocks over all the search paths,
/// each block reckoned once"
pub fn blocks_met_by_all(shape: &Shape, keys: &[u64]) -> u64 {
    if shape.nodes.len() <= LITERAL_LIMIT {
        blocks_met_by_all_by_definition(shape, keys)
    } else {
        blocks_met_by_all_by_name(shape, keys)
    }
}

/// Document 02, N8: "Only the root block can reach 2α−1 keys"
pub fn most_in_root_block(order: u64) -> u64 {
    2 * order - 1
}

/// "any other stops at 2α−2."
pub fn most_in_other_block(order: u64) -> u64 {
    2 * order - 2
}

/// "Fill becomes 100·n / ((2α−1) + (b−1)·(2α−2)) rounded down, still 0 when empty",
/// for n keys in b blocks.
pub fn fill(order: u64, keys: u64, blocks: u64) -> u64 {
    if keys == 0 {
        return 0;
    }
    let others = (blocks - 1) * most_in_other_block(order);
    100 * keys / (most_in_root_block(order) + others)
}

// ---------------------------------------------------------------------------
// By definition

/// Every block that exists, each with the keys it holds by definition.
pub fn blocks_by_definition(shape: &Shape) -> Vec<Block> {
    let k = match shape.root_rank() {
        Some(k) => k,
        None => return vec![],
    };
    let mut all = vec![root_block(shape, k)];
    for level in (1..k).rev() {
        for v in &shape.nodes {
            let keys = other_block(shape, v.key, level);
            // "and exists only when it holds one"
            if !keys.is_empty() {
                all.push(Block {
                    leader: v.key,
                    level,
                    keys,
                });
            }
        }
    }
    all
}

/// "With k the root's rank, the root block is named (root, k). It holds the
/// root and all keys of rank k−1."
fn root_block(shape: &Shape, k: u64) -> Block {
    Block {
        leader: shape.root,
        level: k,
        keys: keys_where(shape, |u| u.key == shape.root || u.rank + 1 == k),
    }
}

/// "Any other block (v, i), 1 ≤ i < k, holds the keys of rank i−1 whose leader
/// is v"
fn other_block(shape: &Shape, v: u64, i: u64) -> Vec<u64> {
    keys_where(shape, |u| u.rank == i - 1 && u.leader == v)
}

fn keys_where(shape: &Shape, holds: impl Fn(&Node) -> bool) -> Vec<u64> {
    let held = shape.nodes.iter().filter(|u| holds(u));
    held.map(|u| u.key).collect()
}

/// Counts the blocks of which some key is compared.
pub fn blocks_met_by_definition(shape: &Shape, key: u64) -> u64 {
    let compared = shape.path(key);
    blocks_by_definition(shape)
        .iter()
        .filter(|block| block.keys.iter().any(|u| compared.contains(u)))
        .count() as u64
}

/// Counts the blocks that hold some key on some search path.
pub fn blocks_met_by_all_by_definition(shape: &Shape, keys: &[u64]) -> u64 {
    let paths: Vec<Vec<u64>> = keys.iter().map(|&key| shape.path(key)).collect();
    blocks_by_definition(shape)
        .iter()
        .filter(|block| {
            paths
                .iter()
                .any(|path| block.keys.iter().any(|u| path.contains(u)))
        })
        .count() as u64
}

// ---------------------------------------------------------------------------
// The faster form: each key names its block

/// The name of the block that holds the node: leader and level.
fn name(shape: &Shape, node: &Node, k: u64) -> (u64, u64) {
    if node.key == shape.root || node.rank + 1 == k {
        (shape.root, k)
    } else {
        (node.leader, node.rank + 1)
    }
}

/// The same blocks, by putting each key into the block that it names.
pub fn blocks_by_name(shape: &Shape) -> Vec<Block> {
    let k = match shape.root_rank() {
        Some(k) => k,
        None => return vec![],
    };
    let mut all: BTreeMap<(Reverse<u64>, u64), Vec<u64>> = BTreeMap::new();
    for node in &shape.nodes {
        let (leader, level) = name(shape, node, k);
        all.entry((Reverse(level), leader))
            .or_default()
            .push(node.key);
    }
    all.into_iter()
        .map(|((Reverse(level), leader), keys)| Block {
            leader,
            level,
            keys,
        })
        .collect()
}

/// The same number, by the different names on the way down.
pub fn blocks_met_by_name(shape: &Shape, key: u64) -> u64 {
    let k = match shape.root_rank() {
        Some(k) => k,
        None => return 0,
    };
    let names: BTreeSet<(u64, u64)> = shape
        .path(key)
        .into_iter()
        .map(|u| name(shape, shape.node(u).unwrap(), k))
        .collect();
    names.len() as u64
}

/// The same number, by the different names of the keys that are on some path.
pub fn blocks_met_by_all_by_name(shape: &Shape, keys: &[u64]) -> u64 {
    let k = match shape.root_rank() {
        Some(k) => k,
        None => return 0,
    };
    let compared: BTreeSet<u64> = keys.iter().flat_map(|&key| shape.path(key)).collect();
    let names: BTreeSet<(u64, u64)> = compared
        .into_iter()
        .map(|u| name(shape, shape.node(u).unwrap(), k))
        .collect();
    names.len() as u64
}
