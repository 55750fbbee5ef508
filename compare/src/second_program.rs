//! A call of the second program.

use crate::archive::bits;
use crate::call::{Call, Place};
use crate::list::List;
use crate::outcome::{Outcome, Reply};
use btreap::Question;
use reference::batch;
use reference::calls::{self, LengthReply, LookUpReply, PlainReply, RankReply, StepReply, REAL};
use reference::points::{points, PointsReply};

/// Makes the call on a copy of the table.
pub fn run_second_program(call: &Call, table: &[u64]) -> Outcome {
    let mut after = Outcome::untouched(call, table);
    after.reply = match call {
        Call::SetUp { order, salt } => plain(REAL.set_up(&mut after.table, *order, *salt)),
        Call::Build { order, salt, list } => plain(build(&mut after.table, *order, *salt, list)),
        Call::Load { order, seed, count } => {
            plain(REAL.load(&mut after.table, *order, *seed, *count))
        }
        Call::Insert { key, measure } => ranked(REAL.insert(&mut after.table, *key, *measure)),
        Call::Delete { key } => ranked(REAL.delete(&mut after.table, *key)),
        Call::LookUp { key } => found(REAL.look_up(table, *key)),
        Call::LookUpBatch { .. } => look_up_batch(table, &mut after.questions),
        Call::Range { low, high, .. } => sized(REAL.range(table, *low, *high, &mut after.words)),
        Call::Step { place } => step(table, *place, &mut after),
        Call::Write { .. } => sized(REAL.write_image(table, &mut after.bytes)),
        Call::Read { image } => plain(REAL.read_image(&mut after.table, image)),
        Call::List { image, .. } => sized(REAL.list(image, &mut after.bytes)),
        Call::Pages { .. } => sized(REAL.pages(table, &mut after.bytes)),
        Call::Points { measure } => pointed(points(*measure)),
    };
    after
}

fn build(table: &mut [u64], order: u64, salt: u64, list: &List) -> PlainReply {
    let List {
        keys,
        lengths,
        corrections,
    } = list;
    REAL.build(table, order, salt, keys, lengths, corrections)
}

/// The second program has a record of its own for a question.
fn look_up_batch(table: &[u64], questions: &mut [Question]) -> Reply {
    let given = |&Question { key, held, rank }: &Question| batch::Question { key, held, rank };
    let mut asked: Vec<batch::Question> = questions.iter().map(given).collect();
    let reply = REAL.look_up_batch(table, &mut asked);
    for (question, batch::Question { key, held, rank }) in questions.iter_mut().zip(asked) {
        *question = Question { key, held, rank };
    }
    Reply {
        refusal: reply.refusal,
        numbers: vec![("size", reply.blocks)],
    }
}

/// The mark is a number only in the archive's interface, where every number
/// but zero sets it. A place that is not changed keeps the number given.
fn step(table: &[u64], place: Place, after: &mut Outcome) -> Reply {
    let given = calls::Place {
        next: place.next,
        high: place.high,
        done: place.done != 0,
    };
    let (reply, moved) = REAL.step(table, given);
    let unchanged = moved == given;
    after.place = Some(if unchanged { place } else { Place::of(moved) });
    stepped(reply)
}

fn plain(reply: PlainReply) -> Reply {
    Reply {
        refusal: reply.refusal,
        numbers: vec![],
    }
}

fn ranked(reply: RankReply) -> Reply {
    Reply {
        refusal: reply.refusal,
        numbers: vec![("rank", reply.rank)],
    }
}

fn found(reply: LookUpReply) -> Reply {
    Reply {
        refusal: reply.refusal,
        numbers: vec![
            ("held", reply.held.into()),
            ("rank", reply.rank),
            ("count", reply.count),
            ("leader", reply.leader),
            ("blocks", reply.blocks),
            ("length", reply.measure.length),
            ("correction", bits(reply.measure.correction.into())),
        ],
    }
}

fn sized(reply: LengthReply) -> Reply {
    Reply {
        refusal: reply.refusal,
        numbers: vec![("size", reply.length)],
    }
}

fn stepped(reply: StepReply) -> Reply {
    Reply {
        refusal: reply.refusal,
        numbers: vec![("found", reply.yielded.into()), ("key", reply.key)],
    }
}

fn pointed(reply: PointsReply) -> Reply {
    Reply {
        refusal: reply.refusal,
        numbers: vec![
            ("measured", reply.measured.into()),
            ("half points", reply.half_points),
            ("rest", bits(reply.rest)),
        ],
    }
}
