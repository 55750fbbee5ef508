//! A batch of 300 keys, and the lookups of these keys one by one.

use crate::black_box::black_box;
use crate::candidates::{asking, expect, refusal};
use crate::case::BATCH;
use crate::plain::Plain;
use crate::rows::{Lent, Row};
use crate::timing::least_of_rounds;
use reference::{batch, fast};

/// How often the lookups one by one are timed; each time is that of all of them.
pub const ROUNDS: usize = 3;

/// The name of the row.
pub fn call() -> String {
    format!("batch, {BATCH} keys")
}

/// The batch of these keys for the library.
pub fn for_library(keys: &[u64]) -> Vec<btreap::Question> {
    keys.iter().map(|&key| btreap::Question::new(key)).collect()
}

/// The same for the second program.
pub fn for_fast(keys: &[u64]) -> Vec<batch::Question> {
    let question = |&key| batch::Question {
        key,
        held: 0,
        rank: 0,
    };
    keys.iter().map(question).collect()
}

impl<'a> Lent<'a> {
    /// (c): the set is asked for each of the keys, and the answers are kept.
    pub fn batch(&'a self) -> Row<'a> {
        let (table, keys) = (&self.table, &self.case.batch);
        self.row(
            &call(),
            asking(for_library(keys), move |questions, _| {
                expect(0, refusal(btreap::look_up_batch(table, questions)))
            }),
            asking(for_fast(keys), move |questions, _| {
                expect(0, fast::look_up_batch(table, questions).refusal)
            }),
            asking(
                (Plain::new(self.case.set()), vec![false; BATCH]),
                move |(plain, held), _| {
                    for (held, key) in held.iter_mut().zip(keys) {
                        *held = plain.set.contains_key(key);
                    }
                    black_box(held);
                    assert!(plain.agrees());
                },
            ),
        )
    }

    /// The least time in nanoseconds of the library's lookups of the batch's keys,
    /// one by one.
    pub fn one_by_one(&self) -> f64 {
        let look_up_all = asking((), |_, _| {
            for &key in &self.case.batch {
                expect(0, refusal(btreap::look_up(&self.table, key)));
            }
        });
        least_of_rounds([look_up_all], ROUNDS)[0]
    }
}
