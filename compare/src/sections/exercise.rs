//! Series of calls that several sections make on a table.

use crate::call::{Call, Place};
use crate::case::Case;
use crate::measures;
use crate::tables::{image_length, image_of, keys_in, listing_length, pages_length, table_length};
use reference::Contents;

/// Lends words that are no table's.
pub fn lend_rubbish(case: &mut Case, slots: usize) {
    let words = (0..table_length(slots)).map(|_| case.random.number());
    case.table = words.collect();
}

/// Lends the sound table of an order and the keys, under some salt and measured or not.
pub fn lend_keys(case: &mut Case, slots: usize, order: u64, keys: &[u64]) {
    let contents = case.contents(order, keys);
    case.lend(slots, &contents);
}

/// What is said where there are more keys than slots.
fn refusal_of(slots: usize, contents: &Contents) -> u64 {
    if contents.set.len() > slots {
        10
    } else {
        0
    }
}

/// Builds over rubbish; with more keys than slots that is refused.
pub fn build(case: &mut Case, slots: usize, contents: &Contents) {
    lend_rubbish(case, slots);
    case.refused(Call::build(contents), refusal_of(slots, contents));
}

/// Writes the table's image into an output that is just long enough, too short
/// and too long.
pub fn write(case: &mut Case) {
    let length = image_length(&case.table);
    case.refused(Call::Write { room: length }, 0);
    case.refused(Call::Write { room: length - 1 }, 11);
    case.refused(Call::Write { room: length + 7 }, 0);
}

/// Prints the table's keys on pages, into outputs of the same three lengths.
pub fn pages(case: &mut Case) {
    let length = pages_length(keys_in(&case.table).len());
    case.refused(Call::Pages { room: length }, 0);
    case.refused(Call::Pages { room: length - 1 }, 11);
    case.refused(Call::Pages { room: length + 7 }, 0);
}

/// Reads the image over rubbish; the table that was lent before is lent again afterwards.
pub fn read(case: &mut Case, slots: usize, contents: &Contents) {
    let before = case.table.clone();
    lend_rubbish(case, slots);
    let image = image_of(contents);
    case.refused(Call::Read { image }, refusal_of(slots, contents));
    case.table = before;
}

/// Lists the image into outputs of three lengths.
pub fn list(case: &mut Case, contents: &Contents) {
    let (image, length) = (image_of(contents), listing_length(contents));
    for (room, refusal) in [(length, 0), (length - 1, 11), (length + 5, 0)] {
        let image = image.clone();
        case.refused(Call::List { image, room }, refusal);
    }
}

/// The whole range into outputs of three lengths.
pub fn whole_range(case: &mut Case) {
    let number = keys_in(&case.table).len();
    for room in [number, number + 3, number.saturating_sub(1)] {
        let (low, high) = (0, u64::MAX);
        let refusal = if room < number { 11 } else { 0 };
        case.refused(Call::Range { low, high, room }, refusal);
    }
}

/// Looks each of the keys up.
pub fn look_up(case: &mut Case, keys: &[u64]) {
    for &key in keys {
        case.call(Call::LookUp { key });
    }
}

/// Steps until the end has been answered twice, or so many times.
pub fn steps(case: &mut Case, from: Place, most: usize) {
    let mut place = from;
    let mut ends = 0;
    for _ in 0..most {
        let outcome = case.call(Call::Step { place });
        place = outcome.place.expect("a step has a place");
        if outcome.reply.numbers[0].1 == 0 {
            ends += 1;
        }
        if ends == 2 {
            return;
        }
    }
}

/// Deletes each of the keys and inserts it again, measured or not, from the first to
/// the last.
pub fn take_out_and_put_back(case: &mut Case, keys: &[u64]) {
    for &key in keys {
        case.refused(Call::Delete { key }, 0);
        insert(case, key, 0);
    }
}

/// Inserts a key, measured or not.
pub fn insert(case: &mut Case, key: u64, refusal: u64) {
    let measure = measures::right(&mut case.random);
    case.refused(Call::Insert { key, measure }, refusal);
}

/// All of the above but the last on a table built from the set.
pub fn everything(case: &mut Case, slots: usize, contents: &Contents) {
    build(case, slots, contents);
    let number = contents.set.len();
    if number <= slots {
        write(case);
        pages(case);
        whole_range(case);
        steps(case, Place::WHOLE, number + 2);
    }
    read(case, slots, contents);
    list(case, contents);
}
