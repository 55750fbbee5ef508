//! Before a case is timed: the library and the second program's fast form must
//! do the same on it, or their times would not be times of one job.

use crate::batch::{for_fast, for_library};
use crate::case::ORDER;
use crate::load;
use crate::measures::Measures;
use crate::points;
use crate::rows::{build, build_fast, Lent};
use btreap::{Found, Measure, Refusal, Size};
use reference::load::NO_SALT;
use reference::{fast, measure};

/// Ends the run where a table, an image, a listing, a page, a question or a reply differs.
pub fn check(lent: &Lent) {
    let (case, table, image) = (lent.case, &lent.table[..], &lent.image[..]);
    let mut other = vec![0; table.len()];
    check_build(lent, &Measures::of(case.keys.len(), 1), &mut other);
    check_build(lent, &case.measures, &mut other);
    assert!(other == table, "build differs");
    assert!(output(image.len(), |out| fast::write_image(table, out).length) == image);
    fast::set_up(&mut other, ORDER, !lent.salt);
    fast::read_image(&mut other, image);
    assert!(other == table, "read differs");
    let room = 100 * (case.keys.len() + 1);
    let text = output(room, |out| fast::list(image, out).length);
    assert!(text == output(room, |out| btreap::list(image, out).map_or(0, |n| n as u64)));
    check_pages(table, case.keys.len());
    check_batch(table, &case.batch);
    for &key in case.held.iter().chain(&case.absent) {
        check_look_up(table, key);
        check_insert(table, key, Measure::NONE);
        check_insert(table, key, Measure::new(26_500, -120));
        check_change(
            table,
            |t| btreap::delete(t, key),
            |t| fast::delete(t, key).rank,
        );
    }
}

/// The same for the load, the separate calls and the set. Separate calls take
/// long, and are made for a part of the load.
pub fn check_load() {
    for count in [load::COUNT / 16, load::COUNT] {
        let (mut one, mut other) = (load::words(), load::words());
        load::by_library(&mut one, count);
        fast::load(&mut other, ORDER, load::SEED, count);
        assert!(one == other, "load differs");
        let keys: Vec<u64> = load::by_set(count).into_keys().collect();
        let zeros = vec![0; keys.len()];
        let none = vec![0; keys.len()];
        fast::build(&mut other, ORDER, NO_SALT, &keys, &zeros, &none);
        assert!(one == other, "the set differs");
        if count < load::COUNT {
            load::by_separate_calls(&mut other, count);
            assert!(one == other, "separate calls differ");
        }
    }
}

/// The same for sizes: of the lasts that are timed, of one that is not measured and of
/// one that is turned down.
pub fn check_points() {
    let others = [Measure::NONE, Measure::new(9_999, 0)];
    for measure in points::for_library().into_iter().chain(others) {
        let reply = fast::points(for_fast_form(measure));
        let size = Size {
            half_points: reply.half_points,
            rest: reply.rest,
        };
        let due = match reply.refusal {
            0 => Ok(reply.measured.then_some(size)),
            refusal => Err(refusal),
        };
        assert_eq!(btreap::points(measure).map_err(Refusal::number), due);
    }
}

/// Both build the same table of the case's keys with these measures, which the second
/// program leaves in `table`.
fn check_build(lent: &Lent, measures: &Measures, table: &mut [u64]) {
    let (salt, keys) = (lent.salt, &lent.case.keys);
    let mut one = table.to_vec();
    assert_eq!(build(&mut one, salt, keys, measures), Ok(()));
    build_fast(table, salt, keys, measures);
    assert!(one == table, "build differs");
}

/// Both write the same pages of so many keys.
fn check_pages(table: &[u64], keys: usize) {
    let room = btreap::pages_bytes(keys);
    let text = output(room, |out| fast::pages(table, out).length);
    assert_eq!(text.len(), room);
    assert!(
        text == output(room, |out| btreap::pages(table, out)
            .map_or(0, |n| n as u64))
    );
}

/// The bytes that a call writes, as many as it says.
fn output(room: usize, call: impl FnOnce(&mut [u8]) -> u64) -> Vec<u8> {
    let mut bytes = vec![0; room];
    let length = call(&mut bytes);
    bytes.truncate(length as usize);
    bytes
}

fn check_look_up(table: &[u64], key: u64) {
    let reply = fast::look_up(table, key);
    let found = match reply.held {
        true => Found::Held {
            rank: reply.rank,
            count: reply.count,
            leader: reply.leader,
            blocks: reply.blocks,
            measure: Measure::new(reply.measure.length, reply.measure.correction),
        },
        false => Found::Absent {
            blocks: reply.blocks,
        },
    };
    assert_eq!(btreap::look_up(table, key), Ok(found));
}

/// Both meet as many blocks and say the same of each key.
fn check_batch(table: &[u64], keys: &[u64]) {
    let (mut one, mut other) = (for_library(keys), for_fast(keys));
    let reply = fast::look_up_batch(table, &mut other);
    assert_eq!(btreap::look_up_batch(table, &mut one), Ok(reply.blocks));
    let said = one.iter().map(|question| (question.held, question.rank));
    assert!(said.eq(other.iter().map(|question| (question.held, question.rank))));
}

fn check_insert(table: &[u64], key: u64, measure: Measure) {
    check_change(
        table,
        |t| btreap::insert_measured(t, key, measure),
        |t| fast::insert(t, key, for_fast_form(measure)).rank,
    );
}

/// The second program has a record of its own for a measure.
pub fn for_fast_form(measure: Measure) -> measure::Measure {
    measure::Measure::new(measure.length, measure.correction)
}

/// Both give the same rank, zero when refused, and leave the same words.
fn check_change(
    table: &[u64],
    ours: impl FnOnce(&mut [u64]) -> Result<u64, Refusal>,
    fast: impl FnOnce(&mut [u64]) -> u64,
) {
    let (mut one, mut other) = (table.to_vec(), table.to_vec());
    assert_eq!(ours(&mut one).unwrap_or(0), fast(&mut other));
    assert!(one == other, "a change differs");
}
