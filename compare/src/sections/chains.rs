//! Keys whose treap is a chain, up to the longest that a table has.

use super::{exercise, Section};
use crate::call::{Call, Place};
use crate::case::{Case, Tally};
use crate::keys::Chain;
use crate::tables::{image_of, longest_image};

pub const SECTION: Section = Section {
    name: "chains",
    run,
};

fn run(tally: &mut Tally) {
    for chain in Chain::ALL {
        for number in 1..=24 {
            for order in [3, 4, 7, 255] {
                tally.case(|case| short_chain(case, chain, number, order));
            }
        }
        for order in [3, 5, 32, 33, 64, 255] {
            tally.case(|case| long_chain(case, chain, 64, 64, order));
            tally.case(|case| long_chain(case, chain, 999, 1000, order));
        }
    }
    tally.case(|case| long_chain(case, Chain::Right, 4095, 4096, 3));
    tally.case(|case| long_chain(case, Chain::Left, 4095, 4096, 255));
    tally.case(|case| long_chain(case, Chain::ToAndFro, 4095, 4096, 8));
}

fn short_chain(case: &mut Case, chain: Chain, number: usize, order: u64) {
    let salt = case.salt();
    let keys = chain.keys(salt, number);
    let slots = number + case.random.below(3);
    let contents = case.contents_under(salt, order, &keys);
    exercise::everything(case, slots, &contents);
    exercise::look_up(case, &keys);
    exercise::take_out_and_put_back(case, &keys);
}

/// A longer one: its ends and some keys between.
fn long_chain(case: &mut Case, chain: Chain, number: usize, slots: usize, order: u64) {
    let salt = case.salt();
    let keys = chain.keys(salt, number);
    let (first, last) = (keys[0], keys[number - 1]);
    let middle = case.random.pick(&keys);
    let contents = case.contents_under(salt, order, &keys);
    exercise::build(case, slots, &contents);
    exercise::look_up(case, &[first, middle, last, middle + 1, last + 1]);
    exercise::take_out_and_put_back(case, &[first, middle, last]);
    exercise::steps(case, Place::new(middle, u64::MAX), 2);
    case.call(Call::insert(last + 1));
    let room = longest_image(slots);
    case.call(Call::Write { room });
    exercise::read(case, slots, &contents);
    let image = image_of(&contents);
    let room = 10 * image.len();
    case.refused(Call::List { image, room }, 0);
}
