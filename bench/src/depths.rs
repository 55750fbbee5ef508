//! The stack that each call uses.

use crate::black_box::black_box;
use crate::case::ORDER;
use crate::measures::Measures;
use crate::salts::SALT;
use crate::stack::depth;
use btreap::{Place, Question, Refusal, LONGEST_IMAGE, MOST_SLOTS};
use reference::random::splitmix;
use std::collections::BTreeSet;

/// The operations of the load: more than it takes for the table to be full, or
/// as full as loads make it.
const LOAD: u16 = 5_000;

/// How many neighbours a run has.
const RUN: usize = 64;

/// Measures every call at the greatest table, of random keys and of keys in runs,
/// and at a small one, and prints it.
pub fn print() {
    let great = depths(&random_keys(MOST_SLOTS));
    let in_runs = depths(&keys_in_runs());
    let small = depths(&random_keys(64));
    println!("| call | bytes of stack, M = n = {MOST_SLOTS} | in runs of {RUN} | M = n = 64 |");
    println!("|---|---:|---:|---:|");
    for (((call, great), (_, in_runs)), (_, small)) in great.into_iter().zip(in_runs).zip(small) {
        println!("| {call} | {great} | {in_runs} | {small} |");
    }
}

/// Each call's depth on a table that the keys fill, all of them measured and under a salt,
/// so that its image is as long as it can be. Insert follows delete, so that there is room.
fn depths(keys: &[u64]) -> Vec<(&'static str, usize)> {
    let slots = keys.len();
    let (key, measures) = (keys[slots / 2], Measures::of(slots, 1));
    let (measure, lengths, corrections) =
        (measures.at(0), &measures.lengths, &measures.corrections);
    let mut table = vec![0; btreap::table_words(slots)];
    let t = &mut table[..];
    let (mut image, mut text) = (vec![0; LONGEST_IMAGE], vec![0; 100 * (slots + 1)]);
    let mut words = vec![0; slots];
    let mut batch: Vec<Question> = keys.iter().map(|&key| Question::new(key)).collect();
    let mut depths = vec![];
    let mut depth_of = |call, job: &mut dyn FnMut()| depths.push((call, depth(job)));
    depth_of("(no call)", &mut || ());
    depth_of("set_up", &mut || done(btreap::set_up(t, ORDER, SALT)));
    depth_of("load", &mut || done(btreap::load(t, ORDER, 1, LOAD)));
    depth_of("build", &mut || {
        done(btreap::build_measured(
            t,
            ORDER,
            SALT,
            keys,
            lengths,
            corrections,
        ))
    });
    depth_of("delete", &mut || done(btreap::delete(t, key)));
    depth_of("insert", &mut || {
        done(btreap::insert_measured(t, key, measure))
    });
    depth_of("lookup", &mut || done(btreap::look_up(t, key)));
    depth_of("batch", &mut || done(btreap::look_up_batch(t, &mut batch)));
    depth_of("range", &mut || {
        done(btreap::range(t, 0, u64::MAX, &mut words))
    });
    depth_of("step", &mut || {
        done(btreap::step(t, &mut Place::new(key, key)))
    });
    depth_of("write", &mut || done(btreap::write(t, &mut image)));
    let length = btreap::write(t, &mut image).expect("the table is sound");
    image.truncate(length);
    depth_of("read", &mut || done(btreap::read(t, &image)));
    depth_of("list", &mut || done(btreap::list(&image, &mut text)));
    depth_of("pages", &mut || done(btreap::pages(t, &mut text)));
    depth_of("points", &mut || done(btreap::points(measure)));
    depths
}

/// So many keys, rising.
fn random_keys(number: usize) -> Vec<u64> {
    let mut state = number as u64;
    let mut keys = BTreeSet::new();
    while keys.len() < number {
        keys.insert(splitmix(&mut state).max(1));
    }
    keys.into_iter().collect()
}

/// As many keys as a table can hold, in runs of neighbours, rising.
fn keys_in_runs() -> Vec<u64> {
    let starts = random_keys(MOST_SLOTS / RUN);
    let run = |start: u64| (0..RUN as u64).map(move |i| (start >> 1) + i);
    starts.into_iter().flat_map(run).collect()
}

/// A call that is refused ends the run.
fn done<T>(reply: Result<T, Refusal>) {
    assert!(black_box(reply).is_ok(), "a call was refused");
}

#[cfg(test)]
mod tests {
    use super::*;

    const HEADER: &str = include_str!("../../include/btreap.h");

    /// What the header calls next to none.
    const NEXT_TO_NONE: usize = 1_000;

    /// The number that follows these words of the header.
    fn promised(words: &str) -> usize {
        let text = HEADER.replace("\n *", "");
        let (_, after) = text.split_once(words).expect("the header has these words");
        let number: String = after.chars().take_while(|&c| c != ' ').collect();
        number.replace(',', "").parse().expect("a number")
    }

    #[test]
    fn no_call_uses_more_than_the_header_says() {
        let reading = promised("Stack, as measured: up to ");
        let printing = promised("bytes for btreap_read and btreap_list, up to ");
        let other = promised("for btreap_pages, up to ");
        for keys in [random_keys(MOST_SLOTS), keys_in_runs(), random_keys(64)] {
            for (call, depth) in depths(&keys) {
                let most = match call {
                    "read" | "list" => reading,
                    "pages" => printing,
                    "set_up" | "points" => NEXT_TO_NONE,
                    _ => other,
                };
                let slots = keys.len();
                assert!(depth <= most, "{call}, {slots} slots: {depth} > {most}");
            }
        }
    }
}
