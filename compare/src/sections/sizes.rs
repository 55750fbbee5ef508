//! Every small number of slots and those about the powers of two; and in large
//! tables numbers of keys about them. Where a program treats small tables and
//! large ones apart, this is where it might go wrong.

use super::{exercise, Section};
use crate::batches::with_neighbours;
use crate::call::{Call, Place};
use crate::case::{Case, Tally};
use crate::tables::{contents_in, image_of, listing_length, pages_length};
use reference::MOST_SLOTS;

pub const SECTION: Section = Section { name: "sizes", run };

const EVERY_SIZE_TO: usize = 70;

fn run(tally: &mut Tally) {
    for slots in (1..=EVERY_SIZE_TO).chain(about_powers_of_two()) {
        for number in [slots, slots - 1, slots / 2] {
            tally.case(|case| each_call(case, slots, number));
        }
    }
    for slots in [600, MOST_SLOTS] {
        for number in about_powers_of_two().filter(|&number| number <= slots) {
            tally.case(|case| each_call(case, slots, number));
        }
    }
}

/// 63, 64, 65, 127, .. as far as there are tables.
fn about_powers_of_two() -> impl Iterator<Item = usize> {
    let powers = (6..=12).map(|power| 1 << power);
    let about = powers.flat_map(|power| [power - 1, power, power + 1]);
    about.filter(|&number| number <= MOST_SLOTS)
}

/// Calls of each kind, most of them on a table with so many keys.
fn each_call(case: &mut Case, slots: usize, number: usize) {
    let order = case.random.order();
    let mut keys = case.random.keys(number + 1);
    let fresh = keys.remove(case.random.below(number + 1));
    let contents = case.contents(order, &keys);
    exercise::build(case, slots, &contents);
    let refusal = if number < slots { 0 } else { 10 };
    exercise::insert(case, fresh, refusal);
    case.call(Call::Delete { key: fresh });
    exercise::look_up(case, &[fresh]);
    let batch = with_neighbours(&keys);
    case.refused(Call::LookUpBatch { keys: batch }, 0);
    if number > 0 {
        let held = case.random.pick(&keys);
        exercise::look_up(case, &[held]);
        exercise::take_out_and_put_back(case, &[held]);
        ranges(case, &keys);
    }
    exercise::steps(case, Place::WHOLE, 2);
    outputs(case);
    exercise::read(case, slots, &contents);
}

/// Ranges from a held key to another, each just fitting; of one key alone, also
/// the first and the last.
fn ranges(case: &mut Case, keys: &[u64]) {
    let last = keys.len() - 1;
    let (i, j) = (case.random.below(last + 1), case.random.below(last + 1));
    for (i, j) in [
        (i.min(j), i.max(j)),
        (i, i),
        (0, 0),
        (last, last),
        (0, last),
    ] {
        let (low, high, room) = (keys[i], keys[j], j - i + 1);
        case.refused(Call::Range { low, high, room }, 0);
    }
}

/// All that is written of the table, each just fitting.
fn outputs(case: &mut Case) {
    let contents = contents_in(&case.table);
    let (low, high, room) = (0, u64::MAX, contents.set.len());
    case.refused(Call::Range { low, high, room }, 0);
    let image = image_of(&contents);
    let room = image.len();
    case.refused(Call::Write { room }, 0);
    let room = pages_length(contents.set.len());
    case.refused(Call::Pages { room }, 0);
    let room = listing_length(&contents);
    case.refused(Call::List { image, room }, 0);
}
