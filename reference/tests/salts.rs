//! Salts: priorities and homes under one, ties, where tables and images keep it, what is
//! refused, which calls keep a table's salt and which give it another; by both forms.

mod common;

use common::forms::{Form, FORMS};
use common::{Random, SALTS};
use reference::calls::{LengthReply, REAL};
use reference::image::{contents_of, image};
use reference::listing::listing;
use reference::measure::Measure;
use reference::pages::pages;
use reference::priority::{priority, salted, Entry, E, TIES};
use reference::table::{length_of_slots, words, HEADER_WORDS, SALT_WORD, SLOT_WORDS};
use reference::{listing, pages, Contents, LITERAL_LIMIT};

/// The programs of the listing and of the pages.
const PROGRAMS: [fn(&[u8]) -> String; 2] = [
    |input| listing::program(&REAL, input),
    |input| pages::program(&REAL, input),
];

/// What a text or an image is by a call that writes it.
fn written(call: impl FnOnce(&mut [u8]) -> LengthReply) -> Vec<u8> {
    let mut output = vec![0; 20_000];
    let reply = call(&mut output);
    assert_eq!(reply.refusal, 0);
    output.truncate(reply.length as usize);
    output
}

/// The table of these contents, built over other words.
fn built(form: Form, slots: usize, contents: &Contents) -> Vec<u64> {
    let mut table = vec![7; length_of_slots(slots)];
    let (lengths, corrections) = (contents.lengths(), contents.corrections());
    let (order, salt, keys) = (contents.order, contents.salt, contents.keys());
    let reply = (form.build)(&mut table, order, salt, &keys, &lengths, &corrections);
    assert_eq!(reply.refusal, 0);
    table
}

/// The keys in the slots, zero for an empty one.
fn slots_of(table: &[u64]) -> Vec<u64> {
    let slots = table[HEADER_WORDS..].chunks(SLOT_WORDS);
    slots.map(|slot| slot[0]).collect()
}

/// Few keys or many, so that the literal forms and the faster ones have their turn.
fn random_contents(random: &mut Random, most: u64) -> Contents {
    let (order, keys) = (3 + random.below(5), random.keys(most));
    random.contents(order, &keys)
}

// ---------------------------------------------------------------------------
// Priorities

/// "P of the exclusive or of k and the salt", byte by byte.
#[test]
fn the_priority_is_that_of_the_exclusive_or() {
    let mut random = Random(100);
    for _ in 0..1_000 {
        let key = random.key(500);
        let salt = random.salt(&[key]);
        let byte = |j: usize| (key >> (8 * j) ^ salt >> (8 * j)) % 256;
        let due = (0..8).fold(0, |all, j| all ^ E[256 * j + byte(j) as usize]);
        assert_eq!(salted(&priority, salt)(key), due);
    }
}

/// A key that is the salt itself has the priority P(0), which no key has without a salt.
#[test]
fn the_salt_itself_has_the_priority_of_zero() {
    let zero = (0..8).fold(0, |all, j| all ^ E[256 * j]);
    for key in [1, 5, 1 << 63, u64::MAX] {
        assert_eq!(salted(&priority, key)(key), zero);
        let home = (zero / 65_536 % 100) as usize;
        for form in FORMS {
            let table = built(form, 100, &Contents::unmeasured(3, &[key]).salted(key));
            assert_eq!(slots_of(&table)[home], key);
        }
    }
}

/// "in its home too"
#[test]
fn homes_go_by_the_salt() {
    let mut random = Random(101);
    let mut moved = 0;
    for _ in 0..200 {
        let key = random.key(500);
        let contents = Contents::unmeasured(3, &[key]).salted(random.salt(&[key]));
        let home = (priority(key ^ contents.salt) / 65_536 % 37) as usize;
        moved += u64::from(home != (priority(key) / 65_536 % 37) as usize);
        for form in FORMS {
            let held = slots_of(&built(form, 37, &contents));
            let due = (0..37).map(|slot| if slot == home { key } else { 0 });
            assert!(held.into_iter().eq(due));
        }
    }
    assert!(moved > 100, "{moved}");
}

/// Of two keys whose salted forms tie the lesser outranks, whichever of the salted forms
/// is the lesser.
#[test]
fn ties_are_broken_by_the_keys_themselves() {
    let mut random = Random(102);
    let mut turned = [0, 0];
    for (a, b) in TIES {
        for salt in [1, 1 << 63, u64::MAX, random.next(), random.next()] {
            let keys = [(a ^ salt).min(b ^ salt), (a ^ salt).max(b ^ salt)];
            turned[usize::from(keys[0] != a ^ salt)] += 1;
            let contents = Contents::unmeasured(3, &keys).salted(salt);
            let tied = Entry {
                key: keys[0],
                priority: priority(a),
            };
            for form in FORMS {
                let table = built(form, 40, &contents);
                assert_eq!(table[2], keys[0]);
                let (held, home) = (slots_of(&table), tied.home(40));
                assert_eq!([held[home], held[(home + 1) % 40]], keys);
                assert_eq!(inserted(form, 40, &contents), table);
            }
        }
    }
    assert!(turned.iter().all(|&number| number >= 8), "{turned:?}");
}

/// The table of these contents by inserts, the greatest key first.
fn inserted(form: Form, slots: usize, contents: &Contents) -> Vec<u64> {
    let mut table = vec![9; length_of_slots(slots)];
    (form.set_up)(&mut table, contents.order, contents.salt);
    for (&key, &measure) in contents.set.iter().rev() {
        assert_eq!((form.insert)(&mut table, key, measure).refusal, 0);
    }
    table
}

// ---------------------------------------------------------------------------
// Tables

/// "in a new word after the root key"
#[test]
fn a_blank_table_keeps_its_salt() {
    for form in FORMS {
        for salt in SALTS.into_iter().chain([0x5EED]) {
            let mut table = vec![7; 20];
            assert_eq!((form.set_up)(&mut table, 255, salt).refusal, 0);
            assert_eq!(table, [vec![255, 0, 0, salt], vec![0; 16]].concat());
            assert_eq!(built(form, 2, &REAL.sound(&table).unwrap()), table);
        }
    }
}

/// "its length is 4 + 8·M": whatever the salt is.
#[test]
fn lengths() {
    for form in FORMS {
        for salt in SALTS {
            let refusal = |words| (form.set_up)(&mut vec![5; words], 3, salt).refusal;
            assert_eq!([12, 20, 32_772].map(refusal), [0; 3]);
            assert_eq!([0, 3, 4, 11, 13, 19, 32_771, 32_780].map(refusal), [1; 8]);
            assert_eq!((form.set_up)(&mut [5; 12], 2, salt).refusal, 2);
        }
    }
}

/// Built or inserted, the table is the one of its order, salt and set; under another salt
/// it is another.
#[test]
fn a_table_is_that_of_its_salt() {
    let mut random = Random(103);
    for most in [3, 20, 2 * LITERAL_LIMIT as u64] {
        for _ in 0..20 {
            let contents = random_contents(&mut random, most);
            let due = words(&priority, &contents, most as usize);
            let other = contents.clone().salted(!contents.salt);
            for form in FORMS {
                assert_eq!(built(form, most as usize, &contents), due);
                assert_eq!(inserted(form, most as usize, &contents), due);
                assert_ne!(built(form, most as usize, &other), due);
            }
        }
    }
}

/// Insert, delete and the calls that only read go by the table's own salt and keep it.
#[test]
fn changes_keep_the_salt() {
    let mut random = Random(104);
    for _ in 0..100 {
        let contents = random_contents(&mut random, 9);
        let fresh = random.key(30);
        for form in FORMS {
            let before = built(form, 10, &contents);
            let mut table = before.clone();
            if (form.insert)(&mut table, fresh, Measure::NONE).refusal == 0 {
                assert_eq!(table[SALT_WORD], contents.salt);
                assert!((form.look_up)(&table, fresh).held);
                (form.delete)(&mut table, fresh);
            }
            assert_eq!(table, before);
            for &key in contents.set.keys() {
                assert!((form.look_up)(&table, key).held);
                assert_eq!((form.delete)(&mut table, key).refusal, 0);
            }
            assert_eq!(table[..4], [contents.order, 0, 0, contents.salt]);
        }
    }
}

/// Set-up, build, reading and load give the table a salt whatever it was: load, and
/// reading of an `LH` image, zero.
#[test]
fn salts_before_are_no_matter() {
    let mut random = Random(105);
    for _ in 0..100 {
        let (one, other) = (
            random_contents(&mut random, 9),
            random_contents(&mut random, 9),
        );
        let unsalted = other.clone().salted(0);
        for form in FORMS {
            let table = built(form, 10, &one);
            for contents in [&other, &unsalted] {
                let mut after = table.clone();
                (form.read)(&mut after, &image(&priority, contents));
                assert_eq!(after, words(&priority, contents, 10));
            }
            let mut after = table.clone();
            assert_eq!((form.load)(&mut after, 3, 7, 0).refusal, 0);
            assert_eq!(after, words(&priority, &Contents::unmeasured(3, &[]), 10));
            let mut after = table.clone();
            (form.set_up)(&mut after, other.order, other.salt);
            let blank = Contents::unmeasured(other.order, &[]).salted(other.salt);
            assert_eq!(after, words(&priority, &blank, 10));
        }
    }
}

/// A changed salt word: the table is sound just when its other words are those that the
/// changed salt makes. A blank one always is.
#[test]
fn changed_salt_words() {
    let mut random = Random(106);
    let mut seen = [0, 0];
    for most in [0, 1, 2, 3, 12] {
        for _ in 0..40 {
            let contents = random_contents(&mut random, most);
            let slots = 1 + most as usize;
            let table = words(&priority, &contents, slots);
            for salt in SALTS.into_iter().chain([contents.salt ^ 1, random.next()]) {
                let mut changed = table.clone();
                changed[SALT_WORD] = salt;
                let due = words(&priority, &contents.clone().salted(salt), slots);
                let refusal = if changed == due { 0 } else { 7 };
                seen[usize::from(refusal != 0)] += 1;
                assert!(refusal == 0 || !contents.set.is_empty());
                for form in FORMS {
                    assert_eq!((form.look_up)(&changed, 5).refusal, refusal);
                    assert_eq!((form.pages)(&changed, &mut [0; 2_000]).refusal, refusal);
                }
            }
        }
    }
    assert!(seen.iter().all(|&number| number > 300), "{seen:?}");
}

// ---------------------------------------------------------------------------
// Images

/// "`LS` in place of `LH`, the salt's eight bytes after the root key; salt zero keeps `LH`"
#[test]
fn headers() {
    let salt = 0x1122_3344_5566_7788;
    let eight = [0x88, 0x77, 0x66, 0x55, 0x44, 0x33, 0x22, 0x11];
    for keys in [&[][..], &[5]] {
        let plain = image(&priority, &Contents::unmeasured(3, keys));
        assert_eq!(plain[..2], *b"LH");
        let bytes = image(&priority, &Contents::unmeasured(3, keys).salted(salt));
        // A lone key's records are the same under every salt.
        let due = [b"LS", &plain[2..15], &eight, &plain[15..]].concat();
        assert_eq!(bytes, due);
        for form in FORMS {
            let table = built(form, 3, &Contents::unmeasured(3, keys).salted(salt));
            assert_eq!(written(|output| (form.write)(&table, output)), bytes);
        }
    }
}

/// Written, read into a table of another salt, written again.
#[test]
fn images_come_back() {
    let mut random = Random(107);
    for most in [3, 20, 2 * LITERAL_LIMIT as u64] {
        for _ in 0..20 {
            let contents = random_contents(&mut random, most);
            let bytes = image(&priority, &contents);
            assert_eq!(contents_of(&priority, &bytes), Some(contents.clone()));
            let slots = most as usize;
            let elsewhere = Contents::unmeasured(3, &[]).salted(random.next());
            for form in FORMS {
                let table = built(form, slots, &contents);
                assert_eq!(written(|output| (form.write)(&table, output)), bytes);
                let mut other = built(form, slots, &elsewhere);
                assert_eq!((form.read)(&mut other, &bytes).refusal, 0);
                assert_eq!(other, table);
            }
        }
    }
}

/// "Matching images now also mean matching salts"; and matching tables of as many slots.
#[test]
fn images_match_just_where_order_salt_and_set_do() {
    let mut all = vec![];
    for order in [3, 255] {
        for salt in SALTS.into_iter().chain([5]) {
            for keys in [&[][..], &[5], &[5, 9]] {
                all.push(Contents::unmeasured(order, keys).salted(salt));
            }
        }
    }
    for (i, one) in all.iter().enumerate() {
        for (j, other) in all.iter().enumerate() {
            let same = image(&priority, one) == image(&priority, other);
            assert_eq!(same, i == j);
            let same = words(&priority, one, 3) == words(&priority, other, 3);
            assert_eq!(same, i == j);
        }
    }
}

/// By both forms and both programs.
#[track_caller]
fn refused(damaged: &[u8]) {
    for form in FORMS {
        let mut table = vec![9; length_of_slots(20)];
        let before = table.clone();
        assert_eq!((form.read)(&mut table, damaged).refusal, 6);
        assert_eq!(table, before);
        assert_eq!((form.list)(damaged, &mut [0; 9_000]).refusal, 6);
    }
    for program in PROGRAMS {
        assert_eq!(program(damaged), "refused 6\n");
    }
}

/// "`LS` with zero gives 6"; so does a salt without its mark, a mark without its salt, and
/// a salt that is cut short.
#[test]
fn damaged_headers() {
    let mut random = Random(108);
    for _ in 0..30 {
        let contents = random_contents(&mut random, 12).salted(random.next());
        let bytes = image(&priority, &contents);
        let plain = image(&priority, &contents.clone().salted(0));
        refused(&[b"LS", &plain[2..15], &[0; 8], &plain[15..]].concat());
        refused(&[b"LH", &plain[2..15], &[0; 8], &plain[15..]].concat());
        refused(&[b"LH", &bytes[2..]].concat());
        refused(&[b"LS", &plain[2..]].concat());
        (0..23).for_each(|length| refused(&bytes[..length]));
        (15..23).for_each(|gone| refused(&[&bytes[..gone], &bytes[gone + 1..]].concat()));
        for mark in [
            b"LB", b"LN", b"LM", b"LT", b"Ls", b"lS", b"SL", b"SS", b"\0S",
        ] {
            refused(&[&mark[..], &bytes[2..]].concat());
        }
    }
}

/// The records of one salt under another: an image only where they are the same.
#[test]
fn salts_exchanged() {
    let mut random = Random(109);
    let mut seen = [0, 0];
    for most in [1, 3, 12] {
        for _ in 0..40 {
            let contents = random_contents(&mut random, most).salted(random.next());
            let mut bytes = image(&priority, &contents);
            let other = contents.clone().salted(random.next());
            bytes[15..23].copy_from_slice(&other.salt.to_le_bytes());
            let is_image = bytes == image(&priority, &other);
            seen[usize::from(is_image)] += 1;
            match is_image {
                true => assert_eq!(contents_of(&priority, &bytes), Some(other)),
                false => refused(&bytes),
            }
        }
    }
    assert!(seen.iter().all(|&number| number > 20), "{seen:?}");
}

// ---------------------------------------------------------------------------
// Texts

/// "the listing shows no salt", nor do the pages; but what they show goes by it.
#[test]
fn texts_go_by_the_salt_and_do_not_show_it() {
    let mut random = Random(110);
    for most in [1, 12, 90] {
        for _ in 0..20 {
            let contents = random_contents(&mut random, most);
            let bytes = image(&priority, &contents);
            let texts = [listing(&priority, &contents), pages(&priority, &contents)];
            assert_eq!(PROGRAMS.map(|program| program(&bytes)), texts);
            for form in FORMS {
                let table = built(form, most as usize, &contents);
                let listed = written(|output| (form.list)(&bytes, output));
                let printed = written(|output| (form.pages)(&table, output));
                assert_eq!([listed, printed], texts.clone().map(String::into_bytes));
            }
        }
    }
    let lone = |salt| Contents::unmeasured(3, &[5]).salted(salt);
    assert_eq!(listing(&priority, &lone(0)), listing(&priority, &lone(77)));
    assert_eq!(pages(&priority, &lone(0)), pages(&priority, &lone(77)));
}
