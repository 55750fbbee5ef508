//! Measures: how they are stored, in slots and in images, what a lookup says of
//! them, which are turned down and in what order; by both forms.

mod common;

use common::forms::{Form, FORMS};
use common::{measure_bytes, Random, WRONG};
use reference::calls::{RankReply, REAL};
use reference::fast;
use reference::image::{contents_of, image};
use reference::listing::{listing, program};
use reference::measure::Measure;
use reference::priority::priority;
use reference::program::LONGEST_INPUT;
use reference::table::{length_of_slots, slots_of_length, words, HEADER_WORDS, SLOT_WORDS};
use reference::{Contents, Set, MOST_SLOTS};

fn set(entries: &[(u64, u64, i32)]) -> Contents {
    let entry =
        |&(key, length, correction): &(u64, u64, i32)| (key, Measure::new(length, correction));
    let set: Set = entries.iter().map(entry).collect();
    let (order, salt) = (3, 0);
    Contents { order, salt, set }
}

/// The word in which a slot begins with its key.
fn slot_start(slot: usize) -> usize {
    HEADER_WORDS + SLOT_WORDS * slot
}

// ---------------------------------------------------------------------------
// What is right

/// "a length in hundredths of a millimetre, 10,000 to 40,000, and a signed heel
/// correction, −5,000 to 5,000"; "Length 0 means not measured, and its correction is
/// then 0."
#[test]
fn right_measures() {
    for length in [10_000, 10_001, 25_000, 39_999, 40_000] {
        for correction in [-5_000, -4_999, 0, 4_999, 5_000] {
            assert!(Measure::new(length, correction).is_right());
        }
    }
    assert!(Measure::NONE.is_right());
    assert!(!Measure::NONE.is_measured());
    assert!(WRONG.iter().all(|measure| !measure.is_right()));
}

/// "the correction stored as itself plus 5,000, and as 0 when not measured": a
/// measured −5,000 is stored as 0 too.
#[test]
fn stored_words() {
    for (measure, words) in [
        (Measure::NONE, [0, 0]),
        (Measure::new(26_500, -5_000), [26_500, 0]),
        (Measure::new(26_500, 0), [26_500, 5_000]),
        (Measure::new(26_500, 5_000), [26_500, 10_000]),
        (Measure::new(10_000, -1), [10_000, 4_999]),
    ] {
        assert_eq!(measure.words(), words);
        assert_eq!(Measure::of_words(words), Some(measure));
    }
    for words in [
        [0, 1],
        [0, 5_000],
        [9_999, 5_000],
        [40_001, 5_000],
        [10_000, 10_001],
        [10_000, u64::MAX],
        [u64::MAX, 0],
        [(1 << 32) + 20_000, 0],
    ] {
        assert_eq!(Measure::of_words(words), None, "{words:?}");
    }
}

// ---------------------------------------------------------------------------
// Tables

/// "Slots gain these two words after count".
#[test]
fn words_of_a_slot() {
    let mut table = vec![7; 12];
    for form in FORMS {
        for (measure, stored) in [
            (Measure::NONE, [0, 0]),
            (Measure::new(26_500, -5_000), [26_500, 0]),
            (Measure::new(26_500, 0), [26_500, 5_000]),
            (Measure::new(26_500, 5_000), [26_500, 10_000]),
        ] {
            REAL.set_up(&mut table, 3, 77);
            assert_eq!((form.insert)(&mut table, 5, measure).refusal, 0);
            let [length, correction] = stored;
            let due = [3, 1, 5, 77, 5, 0, 0, 0, 0, 1, length, correction];
            assert_eq!(table, due);
            let lists = ([measure.length], [measure.correction]);
            table.fill(9);
            let reply = (form.build)(&mut table, 3, 77, &[5], &lists.0, &lists.1);
            assert_eq!((reply.refusal, &table[..]), (0, &due[..]));
            assert_eq!((form.look_up)(&table, 5).measure, measure);
        }
    }
}

/// A lookup gives the measure of a held key and zeros for an absent one, and when
/// it is refused.
#[test]
fn lookups_of_mixed_sets() {
    let contents = set(&[
        (4, 10_000, -5_000),
        (5, 0, 0),
        (9, 40_000, 5_000),
        (u64::MAX, 26_500, 17),
    ]);
    let table = words(&priority, &contents, 6);
    for form in FORMS {
        for (&key, &measure) in &contents.set {
            let found = (form.look_up)(&table, key);
            assert_eq!((found.held, found.measure), (true, measure));
        }
        for (key, refusal) in [(6, 0), (0, 3)] {
            let found = (form.look_up)(&table, key);
            assert_eq!((found.refusal, found.held), (refusal, false));
            assert_eq!(found.measure, Measure::NONE);
        }
        assert_eq!((form.look_up)(&table[1..], 4).measure, Measure::NONE);
    }
}

/// No table of an earlier layout has a length that one has now: before measures it was
/// 3 + 6·M, before salts 3 + 8·M, which are odd.
#[test]
fn the_old_layouts() {
    for slots in 1..=MOST_SLOTS {
        let before_measures = 3 + 6 * slots;
        let before_salts = 3 + 8 * slots;
        assert_eq!(slots_of_length(before_measures), None);
        assert_eq!(slots_of_length(before_salts), None);
    }
    for form in FORMS {
        for table in [
            &[3, 1, 5, 5, 0, 0, 0, 0, 1][..],
            &[3, 1, 5, 5, 0, 0, 0, 0, 1, 0, 0],
            &[3, 0, 0, 0, 0, 0, 0, 0, 0, 0, 0],
        ] {
            assert_eq!((form.look_up)(table, 5).refusal, 1);
        }
    }
}

/// Every measure outside the rules in a held slot, and any in an empty one, gives 7.
#[test]
fn damaged_measures_of_tables() {
    let contents = set(&[(4, 10_000, -5_000), (5, 0, 0), (9, 40_000, 5_000)]);
    let table = words(&priority, &contents, 4);
    let refusal = |form: Form, slot: usize, words: [u64; 2]| {
        let mut damaged = table.clone();
        damaged[slot_start(slot) + 6..][..2].copy_from_slice(&words);
        (form.look_up)(&damaged, 5).refusal
    };
    for form in FORMS {
        for slot in 0..4 {
            let is_held = table[slot_start(slot)] != 0;
            let otherwise = if is_held { 0 } else { 7 };
            assert_eq!(refusal(form, slot, [0, 0]), 0);
            for words in [[10_000, 0], [40_000, 10_000], [26_500, 5_000]] {
                assert_eq!(refusal(form, slot, words), otherwise);
            }
            for words in [
                [0, 1],
                [0, 5_000],
                [5_000, 10_000],
                [9_999, 5_000],
                [40_001, 5_000],
                [26_500, 10_001],
                [26_500, u64::MAX],
                [(1 << 32) + 26_500, 0],
                [u64::MAX, 0],
            ] {
                assert_eq!(refusal(form, slot, words), 7, "{words:?}");
            }
        }
    }
}

// ---------------------------------------------------------------------------
// Images

/// One measured key: `LM`, the fields of `LN`, then length and stored correction.
#[test]
fn image_of_a_measured_key() {
    let unmeasured = image(&priority, &set(&[(5, 0, 0)]));
    for (length, correction, tail) in [
        (26_500, -5_000, [0x84, 0x67, 0, 0, 0, 0]),
        (26_500, 0, [0x84, 0x67, 0, 0, 0x88, 0x13]),
        (40_000, 5_000, [0x40, 0x9C, 0, 0, 0x10, 0x27]),
    ] {
        let bytes = image(&priority, &set(&[(5, length, correction)]));
        assert_eq!(bytes.len(), unmeasured.len() + 6);
        assert_eq!(bytes[..29], unmeasured[..29]);
        assert_eq!(bytes[29..31], *b"LM");
        assert_eq!(bytes[31..59], unmeasured[31..]);
        assert_eq!(bytes[59..], tail);
    }
}

/// "15 + 14·b + 30·n" or 8 more, and 6 for each measured key; read back, the set is the
/// same.
#[test]
fn images_of_mixed_sets() {
    let mut random = Random(61);
    let mut measured = [0, 0];
    for _ in 0..200 {
        let keys = random.keys(20);
        let contents = random.contents(3, &keys);
        let bytes = image(&priority, &contents);
        let unmeasured = Contents::unmeasured(3, &keys).salted(contents.salt);
        let plain = image(&priority, &unmeasured);
        let more = measure_bytes(&bytes).len();
        let number = contents.set.values().filter(|m| m.is_measured()).count();
        assert_eq!((more, bytes.len() - plain.len()), (6 * number, 6 * number));
        assert_eq!(contents_of(&priority, &bytes), Some(contents.clone()));
        measured[(number > 0) as usize] += 1;
        for form in FORMS {
            let mut table = vec![3; length_of_slots(20)];
            assert_eq!((form.read)(&mut table, &bytes).refusal, 0);
            assert_eq!(table, words(&priority, &contents, 20));
        }
    }
    assert!(measured.iter().all(|&number| number > 50), "{measured:?}");
}

/// Equal images only for equal orders and sets with equal measures.
#[test]
fn sets_that_differ_in_a_measure_have_other_images() {
    let sets = [
        set(&[(5, 0, 0), (7, 0, 0)]),
        set(&[(5, 10_000, 0), (7, 0, 0)]),
        set(&[(5, 0, 0), (7, 10_000, 0)]),
        set(&[(5, 10_000, -5_000), (7, 0, 0)]),
        set(&[(5, 10_001, 0), (7, 0, 0)]),
    ];
    for (i, one) in sets.iter().enumerate() {
        for (j, other) in sets.iter().enumerate() {
            let same = image(&priority, one) == image(&priority, other);
            assert_eq!(same, i == j);
            let same = words(&priority, one, 3) == words(&priority, other, 3);
            assert_eq!(same, i == j);
        }
    }
}

/// "image reading gives 6 for it": for a measure outside the rules, for `LM` of a key
/// that is not measured, and for either record under the other's mark.
#[test]
fn damaged_records() {
    let bytes = image(&priority, &set(&[(5, 26_500, 0)]));
    let refused = |damaged: &[u8]| {
        for form in FORMS {
            let mut table = vec![9; 12];
            assert_eq!((form.read)(&mut table, damaged).refusal, 6);
            assert_eq!(table, [9; 12]);
        }
        assert_eq!(program(&REAL, damaged), "refused 6\n");
    };
    for (length, correction) in [
        (0u32, 0u16),
        (0, 5_000),
        (1, 5_000),
        (9_999, 5_000),
        (40_001, 5_000),
        (65_536 + 26_500, 5_000),
        (u32::MAX, 5_000),
        (26_500, 10_001),
        (26_500, u16::MAX),
    ] {
        let tail = [&length.to_le_bytes()[..], &correction.to_le_bytes()].concat();
        refused(&[&bytes[..59], &tail].concat());
    }
    // Cut off, with a byte more, under the other mark and under none.
    (30..65).for_each(|length| refused(&bytes[..length]));
    refused(&[&bytes[..], &[0]].concat());
    for mark in [b'N', b'B', b'H', b'm', 0] {
        let mut damaged = bytes.clone();
        damaged[30] = mark;
        refused(&damaged);
    }
    let mut damaged = image(&priority, &set(&[(5, 0, 0)]));
    damaged[30] = b'M';
    refused(&damaged);
}

/// "The listing's lines show no measures", and the byte limit is what 1,000 measured
/// keys would take under a salt if each had a block of its own.
#[test]
fn listings_show_no_measures() {
    let measured = set(&[(5, 26_500, 17), (9, 0, 0)]);
    let unmeasured = Contents::unmeasured(3, &[5, 9]);
    let text = listing(&priority, &unmeasured);
    assert_eq!(listing(&priority, &measured), text);
    assert_eq!(program(&REAL, &image(&priority, &measured)), text);
    let mut output = vec![0; text.len()];
    let reply = fast::list(&image(&priority, &measured), &mut output);
    assert_eq!((reply.refusal, output), (0, text.into_bytes()));
    assert_eq!(LONGEST_INPUT, 23 + (14 + 36) * 1_000);
}

// ---------------------------------------------------------------------------
// Refusals

/// A table that is not sound, a full one, and one with room; the keys are 5 and 7.
fn three_tables() -> [Vec<u64>; 3] {
    let full = words(&priority, &Contents::unmeasured(3, &[5, 7]), 2);
    let wide = words(&priority, &Contents::unmeasured(3, &[5, 7]), 3);
    let mut unsound = full.clone();
    unsound[1] += 1;
    [unsound, full, wide]
}

/// Insert checks 1, 3, 12, 7, 8, 10.
#[test]
fn refusals_of_insert() {
    for form in FORMS {
        let refused = |table: &[u64], key: u64, measure: Measure, refusal: u64| {
            let mut after = table.to_vec();
            let reply = (form.insert)(&mut after, key, measure);
            assert_eq!(reply, RankReply { refusal, rank: 0 }, "{key} {measure:?}");
            assert_eq!(after, table);
        };
        let tables = three_tables();
        let good = [Measure::NONE, Measure::new(10_000, -5_000)];
        for measure in WRONG {
            for table in &tables {
                refused(&table[1..], 0, measure, 1);
                refused(table, 0, measure, 3);
                refused(table, 5, measure, 12);
                refused(table, 6, measure, 12);
            }
        }
        for measure in good {
            let [unsound, full, wide] = &tables;
            refused(&unsound[1..], 0, measure, 1);
            refused(&full[1..], 5, measure, 1);
            tables
                .iter()
                .for_each(|table| refused(table, 0, measure, 3));
            refused(unsound, 5, measure, 7);
            refused(unsound, 6, measure, 7);
            refused(full, 5, measure, 8);
            refused(full, 6, measure, 10);
            // Held is held, whatever the measure.
            refused(wide, 5, measure, 8);
            assert_eq!((form.insert)(&mut wide.clone(), 6, measure).refusal, 0);
        }
    }
}

/// Lengths and corrections.
type Lists<'a> = (&'a [u64], &'a [i32]);

/// Build checks 1, 2, 5, 12, 10; a list that is too short or too long is 12.
#[test]
fn refusals_of_build() {
    let lists: [Lists; 8] = [
        (&[0, 9_999], &[0, 0]),
        (&[40_001, 0], &[0, 0]),
        (&[0, 10_000], &[0, 5_001]),
        (&[0, 0], &[0, 1]),
        (&[0], &[0, 0]),
        (&[0, 0], &[0]),
        (&[0, 0, 0], &[0, 0]),
        (&[0, 0], &[0, 0, 0]),
    ];
    for form in FORMS {
        let refused = |length: usize, order, keys: &[u64], (a, b): Lists, refusal| {
            let mut table = vec![77; length];
            let reply = (form.build)(&mut table, order, 5, keys, a, b);
            assert_eq!(reply.refusal, refusal, "{keys:?} {a:?} {b:?}");
            assert_eq!(table, vec![77; length]);
        };
        for list in lists {
            refused(11, 2, &[4, 4], list, 1);
            refused(12, 2, &[4, 4], list, 2);
            refused(12, 3, &[4, 4], list, 5);
            refused(12, 3, &[0, 4], list, 5);
            refused(12, 3, &[4, 9], list, 12);
            refused(20, 3, &[4, 9], list, 12);
        }
        refused(12, 3, &[4, 9], (&[0, 10_000], &[0, -5_000]), 10);
        refused(12, 3, &[], (&[0], &[]), 12);
        refused(12, 3, &[], (&[], &[0]), 12);
        refused(12, 3, &[4], (&[], &[]), 12);
        let mut table = vec![77; 12];
        assert_eq!((form.build)(&mut table, 3, 5, &[], &[], &[]).refusal, 0);
    }
}

/// Each measure outside the rules, at each place of a list.
#[test]
fn every_place_of_a_list_is_judged() {
    let keys = [1, 2, 3, 4, 5];
    for form in FORMS {
        for measure in WRONG {
            for place in 0..keys.len() {
                let (mut lengths, mut corrections) = ([10_000; 5], [-5_000; 5]);
                let mut table = vec![77; length_of_slots(5)];
                (lengths[place], corrections[place]) = (measure.length, measure.correction);
                let reply = (form.build)(&mut table, 3, 0, &keys, &lengths, &corrections);
                assert_eq!(reply.refusal, 12, "{measure:?}");
            }
        }
    }
}
