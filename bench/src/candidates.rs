//! How a job is repeated, and how its reply is looked at.

use crate::black_box::black_box;
use crate::case::TURNS;
use crate::plain::{serialised, Plain, Set};
use crate::timing::{candidate, Candidate};
use btreap::Refusal;

/// Candidate (a): the exclusive or of all words of the table.
pub fn reading(table: &[u64]) -> Candidate<'_> {
    asking((), move |_, _| {
        black_box(exclusive_or(black_box(table)));
    })
}

/// Of eight strands, each of every eighth word, so that no word waits for the one
/// before it.
fn exclusive_or(words: &[u64]) -> u64 {
    let eights = words.chunks_exact(8);
    let rest = eights.remainder();
    let mut strands = [0; 8];
    for eight in eights {
        for (strand, word) in strands.iter_mut().zip(eight) {
            *strand ^= word;
        }
    }
    strands.iter().chain(rest).fold(0, |all, word| all ^ word)
}

/// A job that may be done again as things are.
pub fn asking<'a, S: 'a>(state: S, mut job: impl FnMut(&mut S, usize) + 'a) -> Candidate<'a> {
    candidate(
        state,
        |_, _, _| (),
        move |state, turn, _| job(state, turn % TURNS),
    )
}

/// A job that writes a table afresh, always over the same words.
pub fn over<'a>(table: &'a [u64], job: impl FnMut(&mut Vec<u64>, usize) + 'a) -> Candidate<'a> {
    asking(table.to_vec(), job)
}

/// A job that changes a table: each repetition has a table of its own, restored
/// by copying before the clock starts.
pub fn changing<'a>(
    table: &'a [u64],
    mut job: impl FnMut(&mut [u64], usize) + 'a,
) -> Candidate<'a> {
    candidate(
        Vec::<Vec<u64>>::new(),
        |tables, _, repeat| {
            if repeat == tables.len() {
                tables.push(vec![0; table.len()]);
            }
            tables[repeat].copy_from_slice(table);
        },
        move |tables, turn, repeat| job(&mut tables[repeat], turn % TURNS),
    )
}

/// (c) of a change: the set is changed, serialised and compared with a copy of
/// what it ought to be now. The copy of each turn is made beforehand, and undoing
/// the change is not timed.
pub fn changing_set<'a>(
    set: Set,
    change: impl Fn(&mut Set, usize) + 'a,
    undo: impl Fn(&mut Set, usize) + 'a,
) -> Candidate<'a> {
    let changed = |turn| {
        let mut set = set.clone();
        change(&mut set, turn);
        serialised(&set)
    };
    let copies: Vec<Vec<u8>> = (0..TURNS).map(changed).collect();
    candidate(
        Vec::<(Plain, Option<usize>)>::new(),
        move |sets, _, repeat| {
            if repeat == sets.len() {
                sets.push((Plain::new(set.clone()), None));
            }
            let (plain, done) = &mut sets[repeat];
            let turn = done.take();
            turn.into_iter().for_each(|turn| undo(&mut plain.set, turn));
        },
        move |sets, turn, repeat| {
            let turn = turn % TURNS;
            let (plain, done) = &mut sets[repeat];
            change(&mut plain.set, turn);
            plain.serialise();
            assert!(plain.room == copies[turn]);
            *done = Some(turn);
        },
    )
}

/// The number of a refusal; zero for acceptance.
pub fn refusal<T>(reply: Result<T, Refusal>) -> u64 {
    let number = reply.as_ref().err().map_or(0, |refusal| refusal.number());
    black_box(reply.ok());
    number
}

pub fn expect(expected: u64, refusal: u64) {
    assert_eq!(
        refusal, expected,
        "a call was refused that should not be, or the reverse"
    );
}
