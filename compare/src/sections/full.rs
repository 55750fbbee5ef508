//! Tables with as many keys as slots, and one key more.

use super::{exercise, Section, SLOTS};
use crate::call::Call;
use crate::case::{Case, Tally};
use crate::tables::image_of;
use reference::MOST_SLOTS;

pub const SECTION: Section = Section { name: "full", run };

fn run(tally: &mut Tally) {
    for slots in SLOTS {
        let cases = match slots {
            0..=64 => 20,
            65..=1000 => 6,
            _ => 2,
        };
        for _ in 0..cases {
            tally.case(|case| filled(case, slots));
            tally.case(|case| one_too_many(case, slots));
        }
    }
}

fn filled(case: &mut Case, slots: usize) {
    let order = case.random.order();
    let mut keys = case.random.keys(slots + 1);
    let fresh = keys.remove(case.random.below(slots + 1));
    let held = case.random.pick(&keys);
    let contents = case.contents(order, &keys);
    exercise::build(case, slots, &contents);
    exercise::write(case);
    exercise::pages(case);
    exercise::whole_range(case);
    exercise::look_up(case, &[held, fresh]);
    exercise::insert(case, held, 8);
    exercise::insert(case, fresh, 10);
    case.refused(Call::Delete { key: fresh }, 9);
    case.refused(Call::Delete { key: held }, 0);
    exercise::insert(case, fresh, 0);
    exercise::insert(case, held, 10);
    exercise::read(case, slots, &contents);
    exercise::list(case, &contents);
}

/// An image of 4,097 keys is none; of fewer it has only too many keys.
fn one_too_many(case: &mut Case, slots: usize) {
    let order = case.random.order();
    let keys = case.random.keys(slots + 1);
    let contents = case.contents(order, &keys);
    exercise::build(case, slots, &contents);
    let fewer = case.contents(order, &keys[..slots]);
    exercise::build(case, slots, &fewer);
    let image = image_of(&contents);
    let read_refusal = if slots < MOST_SLOTS { 10 } else { 6 };
    let list_refusal = if slots < MOST_SLOTS { 0 } else { 6 };
    let room = 10 * image.len();
    case.refused(
        Call::Read {
            image: image.clone(),
        },
        read_refusal,
    );
    case.refused(Call::List { image, room }, list_refusal);
}
