//! Lists, batches, images and outputs far longer than any table's, whose lengths would
//! look right if they were cut to fewer bits.

use super::{exercise, Section};
use crate::call::Call;
use crate::case::{Case, Tally};
use crate::list::List;
use crate::tables::{contents_in, image_of, MEASURED_NODE, NODE};
use reference::measure::Measure;
use reference::Contents;

pub const SECTION: Section = Section { name: "long", run };

/// More than two bytes can count.
const MORE_THAN_TWO_BYTES: u64 = 65_536;

fn run(tally: &mut Tally) {
    for number in [4097, 5000, MORE_THAN_TWO_BYTES, MORE_THAN_TWO_BYTES + 1] {
        tally.case(|case| long_list(case, number));
        tally.case(|case| long_batch(case, number));
        tally.case(|case| long_image(case, number));
    }
    for slots in [1, 7, 4096] {
        tally.case(|case| long_output(case, slots));
    }
}

/// A fault is found at either end even where there are too many keys.
fn long_list(case: &mut Case, number: u64) {
    let rising: Vec<u64> = (1..=number).collect();
    let last = rising.len() - 1;
    for slots in [1, 64, 4096] {
        exercise::lend_rubbish(case, slots);
        let order = case.random.order();
        let contents = case.contents(order, &rising);
        case.refused(Call::build(&contents), 10);
        let salt = contents.salt;
        for (place, key) in [(0, 0), (last, 0), (last, 1), (last / 2, 1)] {
            let mut list = List::unmeasured(&rising);
            list.keys[place] = key;
            case.refused(Call::Build { order, salt, list }, 5);
        }
        long_measures(case, [order, salt], &rising);
    }
}

/// A measure outside the rules is found at either end, and lists of other lengths,
/// also where a length cut to two bytes would be right.
fn long_measures(case: &mut Case, [order, salt]: [u64; 2], rising: &[u64]) {
    let (right, number) = (List::unmeasured(rising), rising.len());
    let mut turned_down = |list| case.refused(Call::Build { order, salt, list }, 12);
    for place in [0, number / 2, number - 1] {
        let mut list = right.clone();
        list.lengths[place] = 9_999;
        turned_down(list);
        let mut list = right.clone();
        list.corrections[place] = 1;
        turned_down(list);
    }
    for more in [1, 65_536] {
        let mut list = right.clone();
        list.lengths.resize(number + more, 0);
        turned_down(list);
        let mut list = right.clone();
        list.corrections.resize(number + more, 0);
        turned_down(list);
    }
    turned_down(List {
        keys: vec![rising[0]],
        ..right
    });
}

/// As many lines are no fault; one at either end is found.
fn long_batch(case: &mut Case, number: u64) {
    let rising: Vec<u64> = (1..=number).collect();
    let last = rising.len() - 1;
    for (slots, held) in [(1, vec![]), (64, vec![1, 77, number])] {
        exercise::lend_keys(case, slots, 3, &held);
        let mut keys = rising.clone();
        case.refused(Call::LookUpBatch { keys }, 0);
        for (place, key) in [(0, 0), (last, 0), (last, number - 1), (last / 2, 1)] {
            keys = rising.clone();
            keys[place] = key;
            case.refused(Call::LookUpBatch { keys }, 5);
        }
    }
}

/// The image of one key with so many node records more, of either kind; the same
/// with zeros; and, as far as two bytes can count, the image that so many keys would
/// have.
fn long_image(case: &mut Case, number: u64) {
    exercise::lend_rubbish(case, 7);
    let salt = case.salt();
    let unmeasured = |keys: &[u64]| Contents::unmeasured(3, keys).salted(salt);
    let measured = |keys: &[u64]| {
        let mut contents = unmeasured(keys);
        let measures = contents.set.values_mut();
        measures.for_each(|measure| *measure = Measure::new(26_500, 0));
        contents
    };
    for (one, length) in [
        (image_of(&unmeasured(&[5])), NODE),
        (image_of(&measured(&[5])), MEASURED_NODE),
    ] {
        let node = &one[one.len() - length..];
        let mut nodes = one.clone();
        (0..number).for_each(|_| nodes.extend(node));
        not_an_image(case, nodes);
        let zeros = vec![0; length * number as usize];
        not_an_image(case, [one, zeros].concat());
    }
    if number < MORE_THAN_TWO_BYTES {
        let keys: Vec<u64> = (1..=number).collect();
        not_an_image(case, image_of(&unmeasured(&keys)));
        not_an_image(case, image_of(&measured(&keys)));
    }
}

fn not_an_image(case: &mut Case, image: Vec<u8>) {
    let (copy, room) = (image.clone(), 100);
    case.refused(Call::Read { image: copy }, 6);
    case.refused(Call::List { image, room }, 6);
}

/// Outputs of many times the length needed.
fn long_output(case: &mut Case, slots: usize) {
    let order = case.random.order();
    let keys = case.random.keys(slots);
    let contents = case.contents(order, &keys);
    exercise::build(case, slots, &contents);
    let room = 1 << 20;
    let (low, high) = (0, u64::MAX);
    case.refused(Call::Range { low, high, room }, 0);
    case.refused(Call::Write { room }, 0);
    case.refused(Call::Pages { room }, 0);
    let image = image_of(&contents_in(&case.table));
    case.refused(Call::List { image, room }, 0);
}
