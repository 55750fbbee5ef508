//! Salts: given to a table by the calls that make one and kept by those that change it; in
//! images, and damaged there and in tables; and tables and images that would be right if
//! the salt had another part in the rules.

use super::damaged_images::read_or_not;
use super::examples::{bytes_are, LISTING_OF_B};
use super::{damaged_tables, exercise, Section, SLOTS};
use crate::call::Call;
use crate::case::{Case, Tally};
use crate::keys::parts;
use crate::measures::right;
use crate::salts::{contents_of, for_keys, ENDS};
use crate::tables::{
    contents_in, image_of, keys_in, slot_start, sound_table, table_length, HEADER, SALTED_HEADER,
};
use reference::measure::Measure;
use reference::priority::priority;
use reference::table::{words, SALT_WORD, SLOT_WORDS};
use reference::{image, Contents};

pub const SECTION: Section = Section { name: "salts", run };

fn run(tally: &mut Tally) {
    for slots in SLOTS {
        (0..4).for_each(|_| tally.case(|case| given_and_kept(case, slots)));
        (0..4).for_each(|_| tally.case(|case| copied(case, slots)));
    }
    for (slots, number) in [
        (1, 0),
        (1, 1),
        (2, 1),
        (2, 2),
        (7, 5),
        (64, 40),
        (1000, 900),
    ] {
        (0..4).for_each(|_| tally.case(|case| changed_word(case, slots, number)));
    }
    for number in [0, 1, 2, 5, 40] {
        (0..4).for_each(|_| tally.case(|case| damaged_headers(case, number)));
    }
    for rule in RULES {
        for keys in parts(&[1, 2, 3, 40, u64::MAX]) {
            tally.case(|case| by_another_rule(case, rule, &keys));
        }
    }
    tally.case(images_tell_salts_apart);
    tally.case(known);
}

/// A salt that is not zero.
fn some_salt(case: &mut Case) -> u64 {
    case.salt().max(1)
}

// ---------------------------------------------------------------------------
// Tables

/// After the call the table has this salt.
fn leaves_salt(case: &mut Case, call: Call, salt: u64) {
    case.call_and_check(call, |outcome| {
        let given = outcome.table[SALT_WORD];
        (given != salt).then(|| format!("salt {given}, and {salt} is due"))
    });
}

/// Set-up, build and reading give the salt, inserts and deletes keep it, a load leaves
/// zero.
fn given_and_kept(case: &mut Case, slots: usize) {
    let (order, keys) = (case.random.order(), case.random.keys(slots.min(6)));
    let salt = for_keys(&keys, &mut case.random);
    exercise::lend_rubbish(case, slots);
    leaves_salt(case, Call::SetUp { order, salt }, salt);
    for &key in &keys {
        let measure = right(&mut case.random);
        leaves_salt(case, Call::Insert { key, measure }, salt);
    }
    let image = image_of(&contents_in(&case.table));
    for &key in &keys {
        leaves_salt(case, Call::Delete { key }, salt);
    }
    let contents = case.contents(order, &keys);
    leaves_salt(case, Call::build(&contents), contents.salt);
    leaves_salt(case, Call::Read { image }, salt);
    let (seed, count) = (case.random.number(), 20);
    leaves_salt(case, Call::Load { order, seed, count }, 0);
}

/// An image written from one table and read into another, which had another salt: the two
/// are then alike.
fn copied(case: &mut Case, slots: usize) {
    let number = case.random.fill(slots);
    let (order, keys) = (case.random.order(), case.random.keys(number));
    let (one, other) = (case.contents(order, &keys), case.contents(order, &keys));
    for contents in [one.clone().salted(0), one, other] {
        let due = sound_table(slots, &contents);
        case.table.clone_from(&due);
        let room = image_of(&contents).len();
        let written = case.refused(Call::Write { room }, 0);
        let elsewhere = case.random.number();
        case.lend(slots, &Contents::unmeasured(3, &[]).salted(elsewhere));
        let image = written.bytes;
        case.call_and_check(Call::Read { image }, |outcome| {
            let is_copy = outcome.table == due;
            (!is_copy).then(|| "the copy is another table".to_string())
        });
    }
}

/// Another salt in the table's word: the table is sound just when its other words are as
/// that salt makes them. A blank one always is.
fn changed_word(case: &mut Case, slots: usize, number: usize) {
    let (order, keys) = (case.random.order(), case.random.keys(number));
    let contents = case.contents(order, &keys);
    let table = sound_table(slots, &contents);
    let near = [contents.salt ^ 1, contents.salt ^ 1 << 63, !contents.salt];
    let drawn = [(); 4].map(|_| for_keys(&keys, &mut case.random));
    for salt in ENDS.into_iter().chain(near).chain(drawn) {
        let mut changed = table.clone();
        changed[SALT_WORD] = salt;
        let due = sound_table(slots, &contents.clone().salted(salt));
        let refusal = if changed == due { 0 } else { 7 };
        assert!(refusal == 0 || number > 0);
        case.table.clone_from(&changed);
        case.refused(Call::LookUp { key: 1 }, refusal);
        damaged_tables::each_call(case, &keys, &changed);
    }
}

// ---------------------------------------------------------------------------
// Images

/// `LS` with zero, without a salt, with one cut short or too long; `LH` with a salt; other
/// marks; and one salt for another, which is an image where the records are the same.
fn damaged_headers(case: &mut Case, number: usize) {
    let (order, keys, salt) = (
        case.random.order(),
        case.random.keys(number),
        some_salt(case),
    );
    let contents = case.contents_under(salt, order, &keys);
    exercise::lend_keys(case, number.max(1), order, &keys);
    let (with, without) = (image_of(&contents), image_of(&contents.clone().salted(0)));
    let bytes = salt.to_le_bytes();
    for (mark, salt) in [
        (b"LS", &[0; 8][..]),
        (b"LS", &[]),
        (b"LS", &bytes[..4]),
        (b"LH", &bytes),
        (b"LH", &[0; 8]),
    ] {
        let (fields, records) = without[2..].split_at(HEADER - 2);
        read_or_not(case, [mark, fields, salt, records].concat(), 6);
    }
    for mark in [b"LH", b"LT", b"lS", b"SL", b"LB", b"LN", b"LM"] {
        read_or_not(case, [mark, &with[2..]].concat(), 6);
    }
    (0..SALTED_HEADER).for_each(|length| read_or_not(case, with[..length].to_vec(), 6));
    let cut = HEADER + case.random.below(8);
    read_or_not(case, [&with[..cut], &with[cut + 1..]].concat(), 6);
    read_or_not(case, [&with[..cut], &[7], &with[cut..]].concat(), 6);
    other_salts(case, &contents, &with);
}

fn other_salts(case: &mut Case, contents: &Contents, image: &[u8]) {
    let bits = (0..64).step_by(9).map(|bit| contents.salt ^ 1 << bit);
    for salt in bits.chain(ENDS) {
        let mut changed = image.to_vec();
        changed[HEADER..SALTED_HEADER].copy_from_slice(&salt.to_le_bytes());
        let due = image_of(&contents.clone().salted(salt));
        let refusal = if changed == due { 0 } else { 6 };
        read_or_not(case, changed, refusal);
    }
}

/// Images agree exactly where orders, salts and sets do, whatever the number of slots.
fn images_tell_salts_apart(case: &mut Case) {
    let mut seen: Vec<(Contents, Vec<u8>)> = vec![];
    for order in [3, 4] {
        for salt in ENDS.into_iter().chain([5, 9, 256]) {
            for keys in [&[][..], &[5], &[5, 9]] {
                for slots in [2, 7] {
                    let contents = Contents::unmeasured(order, keys).salted(salt);
                    case.lend(slots, &contents);
                    let room = image_of(&contents).len();
                    let written = case.call_and_check(Call::Write { room }, |outcome| {
                        let agree = |(other, image): &(Contents, Vec<u8>)| {
                            (*image == outcome.bytes) == (*other == contents)
                        };
                        let told = seen.iter().all(agree);
                        (!told).then(|| "images agree otherwise than contents".to_string())
                    });
                    seen.push((contents, written.bytes));
                }
            }
        }
    }
}

/// A header and a listing written by hand; a lone key's records are the same under every
/// salt, and a listing does not show it.
fn known(case: &mut Case) {
    let salt = 0x1122_3344_5566_7788;
    let empty = b"LS\xFF\0\0\0\0\0\0\0\0\0\0\0\0\x88\x77\x66\x55\x44\x33\x22\x11";
    case.lend(1, &Contents::unmeasured(255, &[]).salted(salt));
    bytes_are(case, Call::Write { room: 23 }, empty);
    for salt in ENDS.into_iter().chain([5]) {
        let contents = contents_of(salt, 3, [(5, Measure::NONE)]);
        let (image, room) = (image_of(&contents), LISTING_OF_B.len());
        bytes_are(case, Call::List { image, room }, LISTING_OF_B.as_bytes());
    }
}

// ---------------------------------------------------------------------------
// Other rules

/// What a key's priority is taken from, in the tree and in the homes.
#[derive(Clone, Copy)]
struct Rule {
    tree: fn(u64, u64) -> u64,
    home: fn(u64, u64) -> u64,
}

const BY_THE_SALT: fn(u64, u64) -> u64 = |key, salt| key ^ salt;
const WITHOUT_IT: fn(u64, u64) -> u64 = |key, _| key;
const ADDED: fn(u64, u64) -> u64 = |key, salt| key.wrapping_add(salt);
const COMPLEMENTED: fn(u64, u64) -> u64 = |key, salt| key ^ !salt;

/// The salt forgotten, in the tree, in the homes or in both; added; its complement.
const RULES: [Rule; 5] = [
    Rule {
        tree: WITHOUT_IT,
        home: WITHOUT_IT,
    },
    Rule {
        tree: BY_THE_SALT,
        home: WITHOUT_IT,
    },
    Rule {
        tree: WITHOUT_IT,
        home: BY_THE_SALT,
    },
    Rule {
        tree: ADDED,
        home: ADDED,
    },
    Rule {
        tree: COMPLEMENTED,
        home: COMPLEMENTED,
    },
];

impl Rule {
    /// The table that the rule would make.
    fn table(self, slots: usize, contents: &Contents) -> Vec<u64> {
        let (salt, unsalted) = (contents.salt, contents.clone().salted(0));
        let tree = words(&|key| priority((self.tree)(key, salt)), &unsalted, slots);
        let mut table = words(&|key| priority((self.home)(key, salt)), &unsalted, slots);
        table[2] = tree[2];
        table[SALT_WORD] = salt;
        for slot in table[slot_start(0)..].chunks_mut(SLOT_WORDS) {
            let mut records = tree[slot_start(0)..].chunks(SLOT_WORDS);
            let record = records.find(|record| record[0] == slot[0]);
            slot.copy_from_slice(record.expect("as many keys and empty slots"));
        }
        table
    }

    /// The image that it would make.
    fn image(self, contents: &Contents) -> Vec<u8> {
        let (salt, unsalted) = (contents.salt, contents.clone().salted(0));
        let plain = image::image(&|key| priority((self.tree)(key, salt)), &unsalted);
        let (fields, records) = plain[2..].split_at(HEADER - 2);
        [b"LS", fields, &salt.to_le_bytes(), records].concat()
    }
}

/// Refused but where the rule makes what the right one does.
fn by_another_rule(case: &mut Case, rule: Rule, keys: &[u64]) {
    let slots = keys.len() + 2;
    for _ in 0..2 {
        let (order, salt) = (case.random.order(), some_salt(case));
        let contents = case.contents_under(salt, order, keys);
        let table = rule.table(slots, &contents);
        assert_eq!(
            (table.len(), keys_in(&table)),
            (table_length(slots), keys.to_vec())
        );
        let is_sound = table == sound_table(slots, &contents);
        case.table.clone_from(&table);
        case.refused(Call::LookUp { key: 1 }, if is_sound { 0 } else { 7 });
        damaged_tables::each_call(case, keys, &table);
        let image = rule.image(&contents);
        let is_image = image == image_of(&contents);
        read_or_not(case, image, if is_image { 0 } else { 6 });
    }
}

#[cfg(test)]
mod tests {
    use super::*;

    /// Document 02's rule makes the tables and images that it is to make. Each other rule
    /// makes others; images do not show the homes.
    #[test]
    fn other_rules_show() {
        let right = Rule {
            tree: BY_THE_SALT,
            home: BY_THE_SALT,
        };
        let keys: Vec<u64> = (1..=40).collect();
        // To add 2^63 is the same as the exclusive or with it.
        for salt in [1, 77, 0x5EED, u64::MAX] {
            let contents = Contents::unmeasured(3, &keys).salted(salt);
            let (table, image) = (sound_table(50, &contents), image_of(&contents));
            assert_eq!(right.table(50, &contents), table);
            assert_eq!(right.image(&contents), image);
            for (place, rule) in RULES.into_iter().enumerate() {
                assert!(rule.table(50, &contents) != table, "rule {place}");
                let only_homes = place == 1;
                assert_eq!(rule.image(&contents) == image, only_homes, "rule {place}");
            }
        }
    }
}
