//! Tables with a word changed, each in turn where they are small, before one
//! call of each kind that asks for soundness.

use super::{exercise, Section};
use crate::batches::random_batch;
use crate::call::{Call, Place};
use crate::case::{Case, Tally};
use crate::keys::{ties, Chain, Home};
use crate::measures;
use crate::random::Random;
use crate::salts::contents_of;
use crate::tables::{
    is_measure_word, keys_in, longest_image, pages_length, slot_start, slots_of, sound_table,
};
use reference::measure::Measure;
use reference::table::SLOT_WORDS;
use reference::Contents;

pub const SECTION: Section = Section {
    name: "damaged-tables",
    run,
};

fn run(tally: &mut Tally) {
    for table in small_tables() {
        for word in 0..table.len() {
            tally.case(|case| one_word(case, &table, word));
        }
        tally.case(|case| two_words(case, &table));
        tally.case(|case| whole_slots(case, &table));
        tally.case(|case| every_order(case, &table));
        tally.case(|case| other_slots(case, &table));
    }
    for (slots, number, damages) in [
        (64, 64, 500),
        (64, 40, 500),
        (1000, 900, 60),
        (4096, 4000, 24),
    ] {
        tally.case(|case| large(case, slots, number, damages));
    }
}

/// Tables with no key measured, with some and with all, without a salt and under one.
fn small_tables() -> Vec<Vec<u64>> {
    let (none, middle) = (Measure::NONE, Measure::new(26_500, 0));
    let least = Measure::new(10_000, -5_000);
    let greatest = Measure::new(40_000, 5_000);
    let (a, b) = ties(u64::MAX)[1];
    let one_home = Home::new(3, 2).keys(77, 0, 2);
    let chain = Chain::Right.keys(1 << 63, 5);
    let all = [
        (1, Contents::unmeasured(3, &[])),
        (1, Contents::unmeasured(255, &[9]).salted(9)),
        (2, contents_of(0, 3, [(1, least), (u64::MAX, none)])),
        (2, contents_of(u64::MAX, 5, [(a, greatest), (b, middle)])),
        (3, Contents::unmeasured(4, &one_home).salted(77)),
        (3, contents_of(1, 3, [(1, none), (2, greatest), (3, least)])),
        (7, Contents::unmeasured(3, &chain).salted(1 << 63)),
        (7, contents_of(0, 3, first_seven(1))),
        (8, contents_of(0x5EED_5EED, 3, first_seven(2))),
    ];
    let table = |(slots, contents): &(usize, Contents)| sound_table(*slots, contents);
    all.iter().map(table).collect()
}

/// Keys 1 to 7, each so many-th measured.
fn first_seven(each: u64) -> [(u64, Measure); 7] {
    [1, 2, 3, 4, 5, 6, 7].map(|key| match key % each {
        0 => (key, Measure::new(20_000 + key, 3 - key as i32)),
        _ => (key, Measure::NONE),
    })
}

/// One word changed in many ways. Small tables get each of its bits changed.
fn one_word(case: &mut Case, table: &[u64], word: usize) {
    let all_bits = matches!(slots_of(table), Some(1 | 2));
    let old = table[word];
    let mut news = vec![0, 1, 2, u64::MAX, old.wrapping_add(1), old.wrapping_sub(1)];
    news.push(case.random.number());
    news.push(case.random.pick(table));
    news.push(case.random.pick(table));
    let bits: Vec<u32> = match all_bits {
        true => (0..64).collect(),
        false => vec![0, 1, 8, 16, 32, 63],
    };
    news.extend(bits.iter().map(|bit| old ^ (1 << bit)));
    if is_measure_word(word) {
        news.extend([9_999, 10_000, 40_000, 40_001, 5_000, 10_001]);
    }
    news.retain(|&new| new != old);
    for new in news {
        let mut damaged = table.to_vec();
        damaged[word] = new;
        each_call(case, &keys_in(table), &damaged);
    }
}

/// Two words exchanged, or changed together so that some sum stays.
fn two_words(case: &mut Case, table: &[u64]) {
    for _ in 0..100 {
        let mut damaged = table.to_vec();
        let (i, j) = (
            case.random.below(table.len()),
            case.random.below(table.len()),
        );
        if case.random.once_in(3) {
            damaged[i] = damaged[i].wrapping_add(1);
            damaged[j] = damaged[j].wrapping_sub(1);
        } else {
            damaged.swap(i, j);
        }
        each_call(case, &keys_in(table), &damaged);
    }
}

/// Slots exchanged, moved on, doubled and taken away, the number of keys made
/// to fit and not.
fn whole_slots(case: &mut Case, table: &[u64]) {
    let slots = slots_of(table).expect("a table");
    for i in 0..slots {
        for j in 0..slots {
            let mut damaged = table.to_vec();
            for word in 0..SLOT_WORDS {
                damaged.swap(slot_start(i) + word, slot_start(j) + word);
            }
            each_call(case, &keys_in(table), &damaged);
            let mut damaged = table.to_vec();
            damaged.copy_within(slot_start(i)..slot_start(i + 1), slot_start(j));
            each_call(case, &keys_in(table), &damaged);
            damaged[1] += 1;
            each_call(case, &keys_in(table), &damaged);
        }
        let mut damaged = table.to_vec();
        damaged[slot_start(i)..slot_start(i + 1)].fill(0);
        each_call(case, &keys_in(table), &damaged);
        damaged[1] = damaged[1].wrapping_sub(1);
        each_call(case, &keys_in(table), &damaged);
    }
}

/// Another order: with few keys the table may be sound for it as well.
fn every_order(case: &mut Case, table: &[u64]) {
    for order in 0..=257 {
        let mut other = table.to_vec();
        other[0] = order;
        case.table = other;
        case.call(Call::LookUp { key: 1 });
    }
}

/// Slots fewer and empty slots more: now and then sound as well.
fn other_slots(case: &mut Case, table: &[u64]) {
    let slots = slots_of(table).expect("a table");
    for number in 1..=2 * slots {
        let mut other = table.to_vec();
        other.resize(slot_start(number), 0);
        each_call(case, &keys_in(table), &other);
    }
}

/// A call of each kind on the damaged table; the keys are those of the table as
/// it was.
pub fn each_call(case: &mut Case, keys: &[u64], damaged: &[u64]) {
    for call in calls(keys, &mut case.random) {
        case.table = damaged.to_vec();
        case.call(call);
    }
}

/// One call of each kind that asks for soundness, the keys being held in the
/// table as it was.
fn calls(keys: &[u64], random: &mut Random) -> [Call; 8] {
    let held = match keys {
        [] => 1,
        _ => random.pick(keys),
    };
    let next = if random.once_in(2) { 0 } else { held };
    [
        Call::Insert {
            key: random.number().max(1),
            measure: measures::right(random),
        },
        Call::Delete { key: held },
        Call::LookUp { key: held },
        Call::LookUpBatch {
            keys: random_batch(keys, random),
        },
        Call::Range {
            low: next,
            high: u64::MAX,
            room: keys.len() + 1,
        },
        Call::Step {
            place: Place::new(next, u64::MAX),
        },
        Call::Write {
            room: longest_image(keys.len() + 1),
        },
        Call::Pages {
            room: pages_length(keys.len() + 1),
        },
    ]
}

/// Words of a large table changed, one before each call.
fn large(case: &mut Case, slots: usize, number: usize, damages: usize) {
    let order = case.random.order();
    let keys = case.random.keys(number);
    let contents = case.contents(order, &keys);
    exercise::build(case, slots, &contents);
    let table = case.table.clone();
    for _ in 0..damages {
        let word = case.random.below(table.len());
        let calls = calls(&keys, &mut case.random);
        let call = calls[case.random.below(calls.len())].clone();
        case.table.clone_from(&table);
        case.table[word] = match case.random.below(4) {
            0 => case.random.pick(&table),
            1 => table[word].wrapping_add(1),
            2 => table[word].wrapping_sub(1),
            _ => table[word] ^ (1 << case.random.below(64)),
        };
        case.call(call);
    }
}
