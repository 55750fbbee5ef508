//! Measures beside the keys: every corner of the rules on insert and build, as they
//! are stored, found, written and read again; and those outside the rules.

use super::{exercise, Section, SLOTS};
use crate::call::Call;
use crate::case::{Case, Tally};
use crate::list::List;
use crate::measures::{measured, CORNERS, WRONG};
use crate::salts::contents_of;
use crate::tables::{contents_in, image_length, image_of, listing_length};
use reference::measure::Measure;
use reference::Contents;

pub const SECTION: Section = Section {
    name: "measures",
    run,
};

const ORDER: u64 = 3;

fn run(tally: &mut Tally) {
    for measure in CORNERS {
        tally.case(|case| taken(case, measure));
        tally.case(|case| another_measure(case, measure));
    }
    for measure in WRONG {
        tally.case(|case| turned_down(case, measure));
    }
    for slots in SLOTS {
        tally.case(|case| lists_of_other_lengths(case, slots));
        tally.case(|case| one_wrong_entry(case, slots));
        tally.case(|case| each_share(case, slots));
    }
    tally.case(unmeasured_by_a_load);
}

/// The words after the count are the length and the correction plus 5,000, zeros for
/// a key that is not measured, by insert, build and reading; a lookup gives both.
fn taken(case: &mut Case, measure: Measure) {
    let stored = match measure.length {
        0 => 0,
        _ => (measure.correction + 5_000) as u64,
    };
    let salt = case.salt();
    let due = [ORDER, 1, 5, salt, 5, 0, 0, 0, 0, 1, measure.length, stored];
    let contents = contents_of(salt, ORDER, [(5, measure)]);
    let (key, image) = (5, image_of(&contents));
    for call in [
        Call::Insert { key, measure },
        Call::build(&contents),
        Call::Read { image },
    ] {
        case.lend(1, &Contents::unmeasured(ORDER, &[]).salted(salt));
        case.call_and_check(call, |outcome| {
            let given = &outcome.table;
            (given[..] != due).then(|| format!("words {given:?}, not {due:?}"))
        });
    }
    found(case, 5, measure);
    found(case, 6, Measure::NONE);
    exercise::write(case);
    exercise::list(case, &contents);
}

/// A lookup gives this measure.
fn found(case: &mut Case, key: u64, measure: Measure) {
    let due = [measure.length, i64::from(measure.correction) as u64];
    case.call_and_check(Call::LookUp { key }, |outcome| {
        let given = [5, 6].map(|i| outcome.reply.numbers[i].1);
        (given != due).then(|| format!("length and correction {given:?}, not {due:?}"))
    });
}

/// An insert of a held key with another measure is 8, and changes nothing; taken out
/// and put back, the key has the new one.
fn another_measure(case: &mut Case, measure: Measure) {
    let keys = [4, 5, 9];
    let contents = case.contents(ORDER, &keys);
    case.lend(4, &contents);
    for key in keys {
        case.refused(Call::Insert { key, measure }, 8);
        found(case, key, contents.set[&key]);
        case.refused(Call::Delete { key }, 0);
        case.refused(Call::Insert { key, measure }, 0);
        found(case, key, measure);
    }
    exercise::write(case);
}

/// A measure outside the rules, on insert and on build at every place of the lists.
fn turned_down(case: &mut Case, measure: Measure) {
    for (slots, held) in [(1, vec![]), (3, vec![4, 9]), (2, vec![4, 9])] {
        exercise::lend_keys(case, slots, ORDER, &held);
        for (key, refusal) in [(0, 3), (5, 12), (9, 12), (u64::MAX, 12)] {
            case.refused(Call::Insert { key, measure }, refusal);
        }
    }
    for slots in [1, 4] {
        for place in 0..4 {
            exercise::lend_rubbish(case, slots);
            let mut contents = case.contents(ORDER, &[4, 5, 9, 12]);
            contents.set.insert([4, 5, 9, 12][place], measure);
            case.refused(Call::build(&contents), 12);
        }
    }
}

/// Lengths and corrections one too few, one too many, none, and as many as another
/// list might have.
fn lists_of_other_lengths(case: &mut Case, slots: usize) {
    let (order, keys) = (case.random.order(), case.random.keys(slots));
    let contents = case.contents(order, &keys);
    let (right, salt) = (List::of(&contents), contents.salt);
    exercise::lend_rubbish(case, slots);
    for lengths in [slots - 1, slots, slots + 1, 0] {
        for corrections in [slots - 1, slots, slots + 1, 0] {
            let mut list = right.clone();
            list.lengths.resize(lengths, 0);
            list.corrections.resize(corrections, 0);
            let refusal = if [lengths, corrections] == [slots; 2] {
                0
            } else {
                12
            };
            case.refused(Call::Build { order, salt, list }, refusal);
        }
    }
    let mut list = right;
    list.keys.clear();
    case.refused(Call::Build { order, salt, list }, 12);
}

/// One measure of many outside the rules, the first, the last or any; 12 also where
/// there are too many keys.
fn one_wrong_entry(case: &mut Case, slots: usize) {
    for number in [slots, slots + 1] {
        let (order, keys) = (case.random.order(), case.random.keys(number));
        exercise::lend_rubbish(case, slots);
        for place in [0, number - 1, case.random.below(number)] {
            let mut contents = case.contents(order, &keys);
            contents.set.insert(keys[place], case.random.pick(&WRONG));
            case.refused(Call::build(&contents), 12);
        }
    }
}

/// No key measured, each second, all: built, written, read, listed, looked up.
fn each_share(case: &mut Case, slots: usize) {
    let (order, keys) = (case.random.order(), case.random.keys(slots));
    for share in [0, 1, 2] {
        let mut contents = case.contents(order, &keys);
        for (i, measure) in contents.set.values_mut().enumerate() {
            *measure = match i % 2 < share {
                true => measured(&mut case.random),
                false => Measure::NONE,
            };
        }
        exercise::lend_rubbish(case, slots);
        case.refused(Call::build(&contents), 0);
        let some = case.random.pick(&keys);
        found(case, keys[0], contents.set[&keys[0]]);
        found(case, some, contents.set[&some]);
        exercise::write(case);
        let (image, room) = (image_of(&contents), listing_length(&contents));
        exercise::lend_rubbish(case, slots);
        let copy = image.clone();
        case.refused(Call::Read { image: copy }, 0);
        case.refused(Call::List { image, room }, 0);
    }
}

/// "a load's keys are unmeasured", whatever the table's were: no word of a measure is
/// left, and the image has no `LM`.
fn unmeasured_by_a_load(case: &mut Case) {
    let keys: Vec<u64> = (1..=512).collect();
    for slots in [512, 600] {
        let mut all = case.contents(ORDER, &keys);
        let measures = all.set.values_mut();
        measures.for_each(|measure| *measure = measured(&mut case.random));
        case.lend(slots, &all);
        let (order, seed, count) = (ORDER, case.random.number(), 2_000);
        case.call_and_check(Call::Load { order, seed, count }, |outcome| {
            let set = contents_in(&outcome.table).set;
            let is_any = set.values().any(|measure| measure.is_measured());
            is_any.then(|| "a load left a measured key".to_string())
        });
        let room = image_length(&case.table);
        case.refused(Call::Write { room }, 0);
    }
}
