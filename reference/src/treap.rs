//! The treap by the literal rule.

use crate::priority::Entry;

/// A treap: nothing, or a root with its two subtrees.
pub type Treap = Option<Box<Root>>;

#[derive(Clone, Debug, PartialEq, Eq)]
pub struct Root {
    pub key: u64,
    pub left: Treap,
    pub right: Treap,
}

/// "The root is the key that outranks the rest; the lesser keys and the greater
/// keys, as parts of the rising list, form its left and right subtrees by the
/// same rule."
pub fn treap(rising: &[Entry]) -> Treap {
    let top = outranking(rising)?;
    Some(Box::new(Root {
        key: rising[top].key,
        left: treap(&rising[..top]),
        right: treap(&rising[top + 1..]),
    }))
}

/// The place in the list of the key that outranks the rest; none if empty.
fn outranking(list: &[Entry]) -> Option<usize> {
    (0..list.len()).reduce(|best, i| {
        if list[i].outranks(list[best]) {
            i
        } else {
            best
        }
    })
}

/// The key at the root; zero means "no key".
pub fn root_key(treap: &Treap) -> u64 {
    treap.as_ref().map_or(0, |root| root.key)
}

/// How many keys the treap has.
pub fn size(treap: &Treap) -> u64 {
    treap
        .as_ref()
        .map_or(0, |root| 1 + size(&root.left) + size(&root.right))
}

/// The keys of the treap, rising.
pub fn keys(treap: &Treap) -> Vec<u64> {
    match treap {
        None => vec![],
        Some(root) => [keys(&root.left), vec![root.key], keys(&root.right)].concat(),
    }
}

/// The subtree whose root is the key; empty when the key is absent.
pub fn subtree(treap: &Treap, key: u64) -> &Treap {
    match treap {
        Some(root) if key < root.key => subtree(&root.left, key),
        Some(root) if key > root.key => subtree(&root.right, key),
        _ => treap,
    }
}

/// The keys that a search compares on its way down, the root first. For a held
/// key these are its ancestors, itself last.
pub fn path(treap: &Treap, key: u64) -> Vec<u64> {
    let mut compared = vec![];
    let mut at = treap;
    while let Some(root) = at {
        compared.push(root.key);
        if key == root.key {
            break;
        }
        at = if key < root.key {
            &root.left
        } else {
            &root.right
        };
    }
    compared
}
