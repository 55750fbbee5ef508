//! Tables and images that the sections begin with, and what can be read off
//! them.

use reference::measure::Measure;
use reference::priority::priority;
use reference::table::{self, HEADER_WORDS, SALT_WORD, SLOT_WORDS};
use reference::{image, listing, Contents};

/// The bytes of an image's header, without a salt and with one.
pub const HEADER: usize = 15;
pub const SALTED_HEADER: usize = HEADER + 8;

/// The bytes of its other records: a block, a key that is not measured and one that is.
pub const BLOCK: usize = 14;
pub const NODE: usize = 30;
pub const MEASURED_NODE: usize = 36;

/// The length of a table of so many slots.
pub fn table_length(slots: usize) -> usize {
    table::length_of_slots(slots)
}

/// How many slots so many words have, if they are a table's.
pub fn slots_of(table: &[u64]) -> Option<usize> {
    table::slots_of_length(table.len())
}

/// The sound table of an order, a salt and a set.
pub fn sound_table(slots: usize, contents: &Contents) -> Vec<u64> {
    table::words(&priority, contents, slots)
}

/// The image of an order, a salt and a set.
pub fn image_of(contents: &Contents) -> Vec<u8> {
    image::image(&priority, contents)
}

/// The most bytes that the image of so many keys has.
pub fn longest_image(keys: usize) -> usize {
    SALTED_HEADER + (BLOCK + MEASURED_NODE) * keys
}

/// The bytes of an image's header, as its mark says.
pub fn header_length(image: &[u8]) -> usize {
    match image.get(1) {
        Some(b'S') => SALTED_HEADER,
        _ => HEADER,
    }
}

/// The length of the text of an image.
pub fn listing_length(contents: &Contents) -> usize {
    listing::listing(&priority, contents).len()
}

/// The length of the pages of so many keys: 10 bytes for each page, of which there is
/// one at least, and 49 for each key.
pub fn pages_length(keys: usize) -> usize {
    10 * ((keys + 49) / 50).max(1) + 49 * keys
}

/// How many blocks an order, a salt and a set have, as their image says.
pub fn blocks_of(contents: &Contents) -> u64 {
    let image = image_of(contents);
    u16::from_le_bytes([image[5], image[6]]).into()
}

/// The keys that a lookup compares in a table of an order, a salt and a set; here they
/// rise too.
pub fn path_of(contents: &Contents, key: u64) -> Vec<u64> {
    let shape = table::shape_of(&priority, contents);
    let mut path = shape.path(key);
    path.sort_unstable();
    path
}

/// The keys in the slots, rising; zeros left out.
pub fn keys_in(table: &[u64]) -> Vec<u64> {
    let slots = table.get(HEADER_WORDS..).unwrap_or(&[]).chunks(SLOT_WORDS);
    let mut keys: Vec<u64> = slots.map(|slot| slot[0]).filter(|&key| key != 0).collect();
    keys.sort_unstable();
    keys
}

/// The rank of the key that the table's third word names as its root, as its slot says;
/// 0 where no slot has it.
pub fn root_rank_in(table: &[u64]) -> u64 {
    let root = table.get(2).copied().filter(|&key| key != 0);
    let mut slots = table.get(HEADER_WORDS..).unwrap_or(&[]).chunks(SLOT_WORDS);
    let slot = slots.find(|slot| Some(slot[0]) == root);
    slot.and_then(|slot| slot.get(4)).copied().unwrap_or(0)
}

/// The order, the salt and the set of a sound table.
pub fn contents_in(table: &[u64]) -> Contents {
    let slots = table[HEADER_WORDS..].chunks(SLOT_WORDS);
    let held = slots.filter(|slot| slot[0] != 0);
    Contents {
        order: table[0],
        salt: table[SALT_WORD],
        set: held.map(|slot| (slot[0], measure_in(slot))).collect(),
    }
}

fn measure_in(slot: &[u64]) -> Measure {
    Measure::of_words([slot[6], slot[7]]).expect("the table is sound")
}

/// The length of the image of a sound table.
pub fn image_length(table: &[u64]) -> usize {
    image_of(&contents_in(table)).len()
}

/// The word in which a slot begins with its key.
pub fn slot_start(slot: usize) -> usize {
    HEADER_WORDS + SLOT_WORDS * slot
}

/// The word in which a slot has its length; the stored correction is the next.
pub fn length_word(slot: usize) -> usize {
    slot_start(slot) + 6
}

/// Whether a table has a length or a stored correction in that word.
pub fn is_measure_word(word: usize) -> bool {
    word >= HEADER_WORDS && (word - HEADER_WORDS) % SLOT_WORDS >= 6
}

/// A table that is not sound: the number of keys is not that of any table.
pub fn make_unsound(table: &mut [u64]) {
    if let Some(number) = table.get_mut(1) {
        *number = u64::MAX;
    }
}
