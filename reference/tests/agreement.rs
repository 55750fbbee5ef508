//! The faster forms agree with the definitions, also under equal priorities;
//! and properties that the documents state of the definitions.

mod common;

use common::{permutations, Random};
use reference::blocks::{
    blocks_by_definition, blocks_by_name, blocks_met_by_all_by_definition,
    blocks_met_by_all_by_name, blocks_met_by_definition, blocks_met_by_name,
};
use reference::priority::{entries, priority, Priority};
use reference::shape::{shape_by_definition, shape_on_one_treap};
use reference::treap::{path, treap};

fn forms_agree(order: u64, keys: &[u64], priority: Priority) {
    let rising = entries(priority, keys);
    let shape = shape_by_definition(order, &rising);
    assert_eq!(shape, shape_on_one_treap(order, &rising));
    let blocks = blocks_by_definition(&shape);
    assert_eq!(blocks, blocks_by_name(&shape));

    let treap = treap(&rising);
    let near = |key: &u64| [*key, key.wrapping_add(1), key - 1];
    let asked: Vec<u64> = keys.iter().flat_map(near).filter(|&key| key != 0).collect();
    for &key in &asked {
        assert_eq!(shape.path(key), path(&treap, key));
        let met = blocks_met_by_definition(&shape, key);
        assert_eq!(met, blocks_met_by_name(&shape, key));
    }
    for batch in [
        &asked[..],
        &asked[asked.len() / 2..],
        &keys[keys.len() / 3..],
    ] {
        let met = blocks_met_by_all_by_definition(&shape, batch);
        assert_eq!(met, blocks_met_by_all_by_name(&shape, batch));
    }

    // Every key is in one block; "Only the root block can reach 2α−1 keys; any other
    // stops at 2α−2." The root block is the first.
    let mut held: Vec<u64> = blocks.iter().flat_map(|b| b.keys.clone()).collect();
    held.sort();
    assert_eq!(held, keys);
    let mut numbers = blocks.iter().map(|b| b.keys.len() as u64);
    assert!(numbers.next().unwrap_or(0) <= 2 * order - 1);
    assert!(numbers.all(|number| number <= 2 * order - 2));
}

/// Tries random sets of up to `most` keys, by the real priority and by written
/// ones that are often equal, for few different ones are drawn.
fn random_sets(seed: u64, tries: u64, most: u64) {
    let mut random = Random(seed);
    for _ in 0..tries {
        let keys = random.keys(most);
        let order = [3, 3, 3, 4, 5, 8, 255][random.below(7) as usize];
        let seed = random.next();
        let spread = [1, 2, 5, 20, u64::MAX][random.below(5) as usize];
        let written = move |key: u64| Random(key ^ seed).next() % spread;
        forms_agree(order, &keys, &written);
        forms_agree(order, &keys, &priority);
    }
}

#[test]
fn forms_agree_on_small_sets() {
    random_sets(1, 4_000, 12);
}

#[test]
fn forms_agree_on_middling_sets() {
    random_sets(2, 150, 64);
}

#[test]
fn forms_agree_on_large_sets() {
    random_sets(3, 4, 200);
}

#[test]
fn forms_agree_on_lists_and_zigzags() {
    let keys: Vec<u64> = (1..=90).collect();
    for order in [3, 4, 10] {
        forms_agree(order, &keys, &|key| key);
        forms_agree(order, &keys, &|key| 1_000 - key);
        forms_agree(order, &keys, &|key: u64| key.abs_diff(45));
        forms_agree(order, &keys, &|key: u64| 1_000 - key.abs_diff(45));
    }
}

/// All sets of up to six keys in every outranking order, so all small treaps.
#[test]
fn forms_agree_on_all_treaps_of_up_to_six_keys() {
    for n in 0..=6 {
        let keys: Vec<u64> = (1..=n).map(|i| 2 * i).collect();
        for priorities in permutations(&keys) {
            forms_agree(3, &keys, &|key| priorities[key as usize / 2 - 1]);
        }
    }
}
