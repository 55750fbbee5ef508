//! Random histories: a set-up or a load over any words, then calls of all fourteen
//! kinds on one table.

use super::{exercise, Section, SLOTS};
use crate::call::Call;
use crate::case::{Case, Tally};
use crate::generator::{load, Generator};

pub const SECTION: Section = Section {
    name: "histories",
    run,
};

/// How many histories there are at so many slots, and of how many calls.
fn plan(slots: usize) -> (usize, usize) {
    match slots {
        1..=3 => (20, 250),
        4..=7 => (40, 400),
        8..=64 => (50, 400),
        65..=1000 => (10, 200),
        _ => (4, 200),
    }
}

fn run(tally: &mut Tally) {
    for slots in SLOTS {
        let (histories, calls) = plan(slots);
        for _ in 0..histories {
            tally.case(|case| history(case, slots, calls));
        }
    }
}

/// Where there are many slots a set of some size is read at once; a short
/// history would never reach one by inserts.
fn history(case: &mut Case, slots: usize, calls: usize) {
    exercise::lend_rubbish(case, slots);
    let order = case.random.order();
    let first = match case.random.below(4) {
        0 => load(order, &mut case.random),
        _ => Call::SetUp {
            order,
            salt: case.salt(),
        },
    };
    case.refused(first, 0);
    if slots > 3 {
        let number = case.random.fill(slots);
        let keys = case.random.keys(number);
        let contents = case.contents(order, &keys);
        case.refused(Call::build(&contents), 0);
    }
    let mut generator = Generator::new(slots);
    for _ in 0..calls {
        let call = generator.next_call(&case.table, &mut case.random);
        let outcome = case.call(call);
        generator.take_note(&outcome);
    }
}
