//! Every call that is lent a table, on tables of all small lengths and those about the
//! greatest, and with nothing where a list, an image, an output or a table might be.

use super::Section;
use crate::archive::Empty;
use crate::call::{Call, Place};
use crate::case::{Case, Tally};
use crate::list::List;
use crate::salts::contents_of;
use crate::tables::{image_of, slots_of, table_length};
use reference::measure::Measure;
use reference::{Contents, MOST_SLOTS};

pub const SECTION: Section = Section {
    name: "lengths",
    run,
};

fn run(tally: &mut Tally) {
    let greatest = table_length(MOST_SLOTS);
    // The last would be a table's if lengths or slots were cut to 16 bits.
    let beyond = [8192, 65_536, 65_537, 65_536 + 7].map(table_length);
    for length in (0..=100).chain(greatest - 15..=greatest + 15).chain(beyond) {
        tally.case(|case| each_call(case, length));
    }
    for empty in [Empty::Address, Empty::Null] {
        tally.case(|case| nothing(case, empty));
    }
}

/// The words are those of a blank table, as far as they go.
fn each_call(case: &mut Case, length: usize) {
    let mut blank = vec![3, 0, 0, case.salt()];
    blank.resize(length, 0);
    let refusal = if slots_of(&blank).is_some() { 0 } else { 1 };
    for call in sensible_calls() {
        case.table.clone_from(&blank);
        case.refused(call, refusal);
    }
    case.table = blank;
    case.refused(Call::Delete { key: 5 }, if refusal == 0 { 9 } else { 1 });
}

/// One of each kind that a blank table of any length accepts.
fn sensible_calls() -> [Call; 11] {
    [
        Call::SetUp {
            order: 255,
            salt: 7,
        },
        Call::build(&Contents::unmeasured(4, &[7]).salted(u64::MAX)),
        Call::Load {
            order: 5,
            seed: 11,
            count: 13,
        },
        Call::Insert {
            key: u64::MAX,
            measure: Measure::new(10_000, -5_000),
        },
        Call::LookUp { key: 1 },
        Call::LookUpBatch {
            keys: vec![1, 7, u64::MAX],
        },
        Call::Range {
            low: 0,
            high: u64::MAX,
            room: 2,
        },
        Call::Step {
            place: Place::WHOLE,
        },
        Call::Write { room: 30 },
        Call::Pages { room: 20 },
        Call::Read {
            image: image_of(&contents_of(5, 9, [(3, Measure::new(40_000, 5_000))])),
        },
    ]
}

/// Nothing lent where there can be nothing, with some address and without.
fn nothing(case: &mut Case, empty: Empty) {
    case.empty = empty;
    case.table = vec![];
    for call in sensible_calls() {
        case.refused(call, 1);
    }
    case.refused(Call::Delete { key: 5 }, 1);
    case.refused(Call::LookUpBatch { keys: vec![] }, 1);
    nothing_for_a_table(case, &[]);
    nothing_for_a_table(case, &[5, 6]);
    case.refused(Call::build(&Contents::unmeasured(3, &[])), 0);
    nothing_for_a_list(case);
    let image = vec![];
    case.refused(Call::List { image, room: 0 }, 6);
    let image = image_of(&Contents::unmeasured(3, &[]));
    case.refused(Call::List { image, room: 0 }, 11);
}

/// One list or two with nothing in them, where another has something.
fn nothing_for_a_list(case: &mut Case) {
    let (order, salt) = (3, 5);
    for bits in 1..7 {
        let number = |bit: usize| bits >> bit & 1;
        let list = List {
            keys: vec![5; number(0)],
            lengths: vec![0; number(1)],
            corrections: vec![0; number(2)],
        };
        case.refused(Call::Build { order, salt, list }, 12);
    }
}

/// Batches, ranges, images and pages that are empty or have nowhere to go.
fn nothing_for_a_table(case: &mut Case, keys: &[u64]) {
    case.lend(2, &Contents::unmeasured(3, keys));
    let nowhere = if keys.is_empty() { 0 } else { 11 };
    for (low, high, refusal) in [(0, u64::MAX, nowhere), (7, 9, 0)] {
        let room = 0;
        case.refused(Call::Range { low, high, room }, refusal);
    }
    case.refused(Call::LookUpBatch { keys: vec![] }, 0);
    case.refused(Call::Write { room: 0 }, 11);
    case.refused(Call::Pages { room: 0 }, 11);
    case.refused(Call::Read { image: vec![] }, 6);
}
