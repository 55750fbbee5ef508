//! Keys that all have one home, the first, the last or another slot.

use super::{exercise, Section};
use crate::call::Call;
use crate::case::{Case, Tally};
use crate::keys::Home;

pub const SECTION: Section = Section { name: "homes", run };

fn run(tally: &mut Tally) {
    for slots in [2, 3, 4, 7, 12] {
        for slot in 0..slots {
            for number in 1..=slots {
                tally.case(|case| few(case, Home::new(slots, slot), number));
            }
        }
    }
    for slot in [0, 31, 63] {
        let home = Home::new(64, slot);
        tally.case(|case| few(case, home, 40));
        tally.case(|case| many(case, home, 64));
        tally.case(|case| two_runs(case, home));
    }
    for (slot, number) in [(0, 1000), (500, 700), (999, 999)] {
        tally.case(|case| many(case, Home::new(1000, slot), number));
    }
    tally.case(|case| many(case, Home::new(4096, 4095), 4096));
    tally.case(|case| many(case, Home::new(4096, 17), 3000));
}

/// Taken out and put back one by one, then taken out in any order.
fn few(case: &mut Case, home: Home, number: usize) {
    let salt = case.salt();
    let mut keys = home.keys(salt, case.random.number() >> 1, number);
    let order = case.random.order();
    let contents = case.contents_under(salt, order, &keys);
    exercise::everything(case, home.slots, &contents);
    exercise::look_up(case, &keys);
    case.random.shuffle(&mut keys);
    exercise::take_out_and_put_back(case, &keys);
    case.random.shuffle(&mut keys);
    for key in keys {
        case.refused(Call::Delete { key }, 0);
    }
}

fn many(case: &mut Case, home: Home, number: usize) {
    let salt = case.salt();
    let keys = home.keys(salt, 0, number);
    let order = case.random.order();
    let contents = case.contents_under(salt, order, &keys);
    exercise::build(case, home.slots, &contents);
    let some = [keys[0], case.random.pick(&keys), keys[number - 1]];
    exercise::look_up(case, &some);
    let fresh = home.after(1).keys(salt, some[2], 1)[0];
    case.refused(Call::Delete { key: some[1] }, 0);
    exercise::insert(case, fresh, 0);
    case.refused(Call::Delete { key: fresh }, 0);
    exercise::insert(case, some[1], 0);
}

/// Two runs of keys that grow into each other, with keys of the slots between.
fn two_runs(case: &mut Case, home: Home) {
    let (salt, slots) = (case.salt(), home.slots);
    let mut keys = home.keys(salt, 0, slots / 3);
    keys.extend(home.after(slots / 4).keys(salt, 0, slots / 3));
    keys.extend(home.after(2).keys(salt, 0, slots / 6));
    let order = case.random.order();
    let blank = case.contents_under(salt, order, &[]);
    case.lend(slots, &blank);
    case.random.shuffle(&mut keys);
    for &key in &keys {
        exercise::insert(case, key, 0);
    }
    case.random.shuffle(&mut keys);
    for &key in &keys {
        case.refused(Call::Delete { key }, 0);
    }
}
