//! A call of the archive, in pages that end the process where it reads or writes
//! what is not lent to it, or writes what it is lent only to read.

use crate::call::{Call, Place};
use crate::outcome::{Outcome, Reply};
use crate::pages::{Access, Cell, Flush, Pages};
use btreap::{sys, Question};
use std::ptr;

/// The address that goes with a length of zero: some address, or none.
#[derive(Clone, Copy, Debug, PartialEq, Eq)]
pub enum Empty {
    Address,
    Null,
}

/// Makes the call twice, each time on copies of its own: all that is lent begins
/// at a closed page, and all ends at one.
pub fn run_archive(call: &Call, table: &[u64], empty: Empty) -> [Outcome; 2] {
    [Flush::Start, Flush::End].map(|flush| run_once(call, table, empty, flush))
}

fn run_once(call: &Call, table: &[u64], empty: Empty, flush: Flush) -> Outcome {
    let lent = Lent::new(call, table, flush);
    let (reply, place) = lent.make(call, empty);
    Outcome {
        reply,
        place,
        stray: lent.stray(),
        table: lent.table.content().to_vec(),
        words: lent.words.content().to_vec(),
        bytes: lent.bytes.content().to_vec(),
        questions: lent.questions.content().to_vec(),
    }
}

// ---------------------------------------------------------------------------
// The call

/// All the memory that a call is lent; what it has no use for is empty.
pub struct Lent {
    pub table: Pages<u64>,
    pub keys: Pages<u64>,
    pub lengths: Pages<u64>,
    pub corrections: Pages<i32>,
    pub image: Pages<u8>,
    pub words: Pages<u64>,
    pub bytes: Pages<u8>,
    pub questions: Pages<Question>,
}

impl Lent {
    pub fn new(call: &Call, table: &[u64], flush: Flush) -> Lent {
        let list = call.list();
        Lent {
            table: Pages::new(table, flush, call.table_access()),
            keys: Pages::new(&list.keys, flush, Access::Read),
            lengths: Pages::new(&list.lengths, flush, Access::Read),
            corrections: Pages::new(&list.corrections, flush, Access::Read),
            image: Pages::new(call.image(), flush, Access::Read),
            words: Pages::new(&call.output_words(), flush, Access::Write),
            bytes: Pages::new(&call.output_bytes(), flush, Access::Write),
            questions: Pages::new(&call.questions(), flush, Access::Write),
        }
    }

    /// The reply, and the place after a step.
    fn make(&self, call: &Call, empty: Empty) -> (Reply, Option<Place>) {
        let (t, n) = lend(&self.table, empty);
        let (image, length) = lend(&self.image, empty);
        let (words, _) = lend(&self.words, empty);
        let (bytes, _) = lend(&self.bytes, empty);
        let (questions, lines) = lend(&self.questions, empty);
        // SAFETY: each address goes with its own length, and no two overlap.
        let reply = unsafe {
            match *call {
                Call::SetUp { order, salt } => plain(sys::btreap_set_up(t, n, order, salt)),
                Call::Build { order, salt, .. } => plain(self.build(order, salt, empty)),
                Call::Load { order, seed, count } => {
                    plain(sys::btreap_load(t, n, order, seed, count))
                }
                Call::Insert { key, measure: m } => {
                    ranked(sys::btreap_insert(t, n, key, m.length, m.correction))
                }
                Call::Delete { key } => ranked(sys::btreap_delete(t, n, key)),
                Call::LookUp { key } => found(sys::btreap_lookup(t, n, key)),
                Call::LookUpBatch { .. } => sized(sys::btreap_lookup_batch(t, n, questions, lines)),
                Call::Range { low, high, room } => {
                    sized(sys::btreap_range(t, n, low, high, words, room))
                }
                Call::Step { place: p } => {
                    return stepped(sys::btreap_step(t, n, p.next, p.high, p.done));
                }
                Call::Write { room } => sized(sys::btreap_write(t, n, bytes, room)),
                Call::Read { .. } => plain(sys::btreap_read(t, n, image, length)),
                Call::List { room, .. } => sized(sys::btreap_list(image, length, bytes, room)),
                Call::Pages { room } => sized(sys::btreap_pages(t, n, bytes, room)),
                Call::Points { measure: m } => pointed(sys::btreap_points(m.length, m.correction)),
            }
        };
        (reply, None)
    }

    /// The refusal of a build from the lists.
    ///
    /// # Safety
    ///
    /// Nobody else uses the table.
    unsafe fn build(&self, order: u64, salt: u64, empty: Empty) -> u64 {
        let (t, n) = lend(&self.table, empty);
        let (keys, number) = lend(&self.keys, empty);
        let (lengths, as_many) = lend(&self.lengths, empty);
        let (corrections, too) = lend(&self.corrections, empty);
        sys::btreap_build(
            t,
            n,
            order,
            salt,
            keys,
            number,
            lengths,
            as_many,
            corrections,
            too,
        )
    }

    /// The memory that was written though the call had no business there.
    fn stray(&self) -> Vec<&'static str> {
        let kept = [
            ("beside the table", self.table.paint_holds()),
            ("beside the output words", self.words.paint_holds()),
            ("beside the output bytes", self.bytes.paint_holds()),
            ("beside the questions", self.questions.paint_holds()),
        ];
        let written = kept.into_iter().filter(|(_, kept)| !kept);
        written.map(|(name, _)| name).collect()
    }
}

/// Address and length of the content.
fn lend<T: Cell>(pages: &Pages<T>, empty: Empty) -> (*mut T, usize) {
    match (pages.content().len(), empty) {
        (0, Empty::Null) => (ptr::null_mut(), 0),
        (length, _) => (pages.start(), length),
    }
}

// ---------------------------------------------------------------------------
// The replies

fn plain(refusal: u64) -> Reply {
    let numbers = vec![];
    Reply { refusal, numbers }
}

fn ranked(reply: sys::RankedReply) -> Reply {
    Reply {
        refusal: reply.refusal,
        numbers: vec![("rank", reply.rank)],
    }
}

fn found(reply: sys::FoundReply) -> Reply {
    Reply {
        refusal: reply.refusal,
        numbers: vec![
            ("held", reply.held),
            ("rank", reply.rank),
            ("count", reply.count),
            ("leader", reply.leader),
            ("blocks", reply.blocks),
            ("length", reply.length),
            ("correction", bits(reply.correction)),
        ],
    }
}

/// A signed number, by its bits.
pub fn bits(number: i64) -> u64 {
    number as u64
}

fn sized(reply: sys::SizedReply) -> Reply {
    Reply {
        refusal: reply.refusal,
        numbers: vec![("size", reply.size)],
    }
}

fn stepped(reply: sys::SteppedReply) -> (Reply, Option<Place>) {
    let place = Place {
        next: reply.next,
        high: reply.high,
        done: reply.done,
    };
    let numbers = vec![("found", reply.found), ("key", reply.key)];
    let refusal = reply.refusal;
    (Reply { refusal, numbers }, Some(place))
}

fn pointed(reply: sys::PointedReply) -> Reply {
    Reply {
        refusal: reply.refusal,
        numbers: vec![
            ("measured", reply.measured),
            ("half points", reply.half_points),
            ("rest", bits(reply.rest)),
        ],
    }
}

#[cfg(test)]
mod tests {
    use super::*;

    #[test]
    fn a_write_beside_what_is_lent_is_named() {
        let call = Call::Write { room: 4 };
        for (flush, beside) in [(Flush::Start, 4), (Flush::End, -1)] {
            let lent = Lent::new(&call, &[], flush);
            assert_eq!(lent.stray(), [""; 0]);
            // SAFETY: within the page, which is ours.
            unsafe { *lent.bytes.start().offset(beside) ^= 1 };
            assert_eq!(lent.stray(), ["beside the output bytes"]);
        }
    }

    #[test]
    fn a_write_beside_the_questions_is_named() {
        let keys = vec![4, 9];
        let call = Call::LookUpBatch { keys };
        for (flush, beside) in [(Flush::Start, 2), (Flush::End, -1)] {
            let lent = Lent::new(&call, &[], flush);
            assert_eq!(lent.stray(), [""; 0]);
            // SAFETY: as above.
            unsafe { (*lent.questions.start().offset(beside)).rank ^= 1 };
            assert_eq!(lent.stray(), ["beside the questions"]);
        }
    }

    #[test]
    fn nothing_has_an_address_or_none() {
        let nothing = Pages::<u8>::new(&[], Flush::End, Access::Read);
        assert!(!lend(&nothing, Empty::Address).0.is_null());
        assert!(lend(&nothing, Empty::Null).0.is_null());
    }
}
