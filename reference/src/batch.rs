//! Document 02, request N2: a batch of lookups, which is the document's sheet.

use crate::blocks::blocks_met_by_all;
use crate::calls::*;
use crate::table::shape_of;

/// A line of the sheet: "a list of records, each with its key and a place for
/// held and rank". What the places hold beforehand is anything.
#[derive(Clone, Copy, Debug, PartialEq, Eq)]
pub struct Question {
    pub key: u64,
    /// 1 for a held key, 0 for an absent one.
    pub held: u64,
    pub rank: u64,
}

/// "the reply gives the number of different blocks over all the search paths,
/// each block reckoned once"
#[derive(Clone, Copy, Debug, Default, PartialEq, Eq)]
pub struct BatchReply {
    pub refusal: u64,
    pub blocks: u64,
}

pub(crate) fn batched(outcome: Outcome<u64>) -> BatchReply {
    match outcome {
        Ok(blocks) => BatchReply { refusal: 0, blocks },
        Err(refusal) => BatchReply { refusal, blocks: 0 },
    }
}

impl Index<'_> {
    /// "the checks are 1, 5, 7; a refusal fills in nothing"
    pub fn look_up_batch(&self, table: &[u64], questions: &mut [Question]) -> BatchReply {
        batched(self.try_look_up_batch(table, questions))
    }

    fn try_look_up_batch(&self, table: &[u64], questions: &mut [Question]) -> Outcome<u64> {
        slots(table)?;
        let keys: Vec<u64> = questions.iter().map(|question| question.key).collect();
        refuse_if(!is_rising(&keys), NOT_RISING)?;
        // "The table is judged once for the sheet"
        let shape = shape_of(self.priority, &self.contents(table)?);
        // "Each line says what a lookup on its own says."
        for question in questions {
            let node = shape.node(question.key);
            question.held = node.is_some().into();
            question.rank = node.map_or(0, |node| node.rank);
        }
        Ok(blocks_met_by_all(&shape, &keys))
    }
}
