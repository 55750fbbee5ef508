//! Up to six keys in every order of outranking: every treap of that size.

use super::{exercise, Section};
use crate::case::Tally;
use crate::keys::{keys_at, permutations};

pub const SECTION: Section = Section {
    name: "shapes",
    run,
};

const MOST_KEYS: usize = 6;

fn run(tally: &mut Tally) {
    for number in 0..=MOST_KEYS {
        for places in permutations(number) {
            for order in [3, 4] {
                tally.case(|case| {
                    let salt = case.salt();
                    let keys = keys_at(salt, &places);
                    let contents = case.contents_under(salt, order, &keys);
                    exercise::build(case, number + 1, &contents);
                    exercise::write(case);
                    exercise::look_up(case, &keys);
                    exercise::take_out_and_put_back(case, &keys);
                });
            }
        }
    }
}
