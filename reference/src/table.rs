//! Document 01, section "The table's words", with the measures and the salt of
//! document 02.

use crate::measure::Measure;
use crate::priority::{entries, salted, Entry, Priority};
use crate::shape::{shape, Shape};
use crate::{is_order, Contents, Set, MOST_SLOTS};

/// Words before the first slot: "Words 0 to 2: α, n, root key", and the salt, "in a new
/// word after the root key".
pub const HEADER_WORDS: usize = 4;

/// The word that has the salt.
pub const SALT_WORD: usize = 3;

/// Words of a slot: "key, left, right, leader, rank, count"; "Slots gain these two
/// words after count".
pub const SLOT_WORDS: usize = 8;

/// The length of a table of M slots: "4 + 8·M"
pub const fn length_of_slots(m: usize) -> usize {
    HEADER_WORDS + SLOT_WORDS * m
}

/// M, when the length is "4 + 8·M" with "M from 1 to 4,096"; else none.
pub fn slots_of_length(words: usize) -> Option<usize> {
    (1..=MOST_SLOTS).find(|&m| words == length_of_slots(m))
}

/// "Slots are those that come of placing the keys one by one, each before all
/// keys it outranks, in the first empty slot at or above home, slot 0 following
/// the last". Gives the key in each slot, zero for an empty one.
pub fn slots(keys: &[Entry], m: usize) -> Vec<u64> {
    let mut slots = vec![0; m];
    for entry in falling(keys) {
        let home = entry.home(m);
        let free = (0..m)
            .map(|step| (home + step) % m)
            .find(|&s| slots[s] == 0);
        slots[free.expect("at most M keys")] = entry.key;
    }
    slots
}

/// The keys, each before all keys it outranks.
fn falling(keys: &[Entry]) -> Vec<Entry> {
    let mut list = keys.to_vec();
    list.sort_by(|a, b| {
        if a == b {
            std::cmp::Ordering::Equal
        } else if a.outranks(*b) {
            std::cmp::Ordering::Less
        } else {
            std::cmp::Ordering::Greater
        }
    });
    list
}

/// The keys, rising, with their priorities under the salt.
fn entries_of(priority: Priority, contents: &Contents) -> Vec<Entry> {
    entries(&salted(priority, contents.salt), &contents.keys())
}

/// The shape of an order and a set under a salt.
pub fn shape_of(priority: Priority, contents: &Contents) -> Shape {
    shape(contents.order, &entries_of(priority, contents))
}

/// "Words 0 to 2: α, n, root key. Then each slot: key, left, right, leader,
/// rank, count. Links are keys. An empty slot is all zeros." The salt comes after the
/// root key, length and stored correction after count.
pub fn words(priority: Priority, contents: &Contents, m: usize) -> Vec<u64> {
    let shape = shape_of(priority, contents);
    let number = contents.set.len() as u64;
    let mut words = vec![contents.order, number, shape.root, contents.salt];
    for key in slots(&entries_of(priority, contents), m) {
        words.extend(match shape.node(key) {
            None => [0; SLOT_WORDS],
            Some(v) => {
                let [length, stored] = contents.set[&key].words();
                [
                    v.key, v.left, v.right, v.leader, v.rank, v.count, length, stored,
                ]
            }
        });
    }
    words
}

/// The only order, salt and set that the words can be those for: words 0 and 3, and
/// the keys in the slots with the measures there. None where a key's measure is
/// outside the rules.
fn candidate(table: &[u64]) -> Option<Contents> {
    let slots = table[HEADER_WORDS..].chunks(SLOT_WORDS);
    let held = slots.filter(|slot| slot[0] != 0);
    let measured = held.map(|slot| Some((slot[0], Measure::of_words([slot[6], slot[7]])?)));
    Some(Contents {
        order: table[0],
        salt: table[SALT_WORD],
        set: measured.collect::<Option<Set>>()?,
    })
}

/// "A table is sound when its words are exactly those for some order and some
/// set of at most M keys", under some salt. Gives these, or none for an unsound table.
pub fn sound(priority: Priority, table: &[u64]) -> Option<Contents> {
    let m = slots_of_length(table.len())?;
    let contents = candidate(table)?;
    let exact = is_order(contents.order) && words(priority, &contents, m) == table;
    exact.then_some(contents)
}
