//! What a call leaves behind, and how two such outcomes differ.

use crate::call::{Call, Place};
use btreap::Question;
use std::fmt::Debug;

/// The numbers of a reply, a signed one by its bits. A refusal of 0 is acceptance.
#[derive(Clone, Debug, PartialEq, Eq)]
pub struct Reply {
    pub refusal: u64,
    pub numbers: Vec<(&'static str, u64)>,
}

impl Reply {
    /// The number of that name, if the reply has one.
    pub fn number(&self, name: &str) -> Option<u64> {
        let mut numbers = self.numbers.iter();
        let number = numbers.find(|(other, _)| *other == name)?;
        Some(number.1)
    }
}

/// A reply with all memory that the call was lent, as it is after the call.
#[derive(Clone, Debug, PartialEq, Eq)]
pub struct Outcome {
    pub reply: Reply,
    pub table: Vec<u64>,
    pub words: Vec<u64>,
    pub bytes: Vec<u8>,
    pub questions: Vec<Question>,
    pub place: Option<Place>,
    /// Memory that the call was not to write and did.
    pub stray: Vec<&'static str>,
}

impl Outcome {
    /// What a call would leave that answers nothing and changes nothing.
    pub fn untouched(call: &Call, table: &[u64]) -> Outcome {
        Outcome {
            reply: Reply {
                refusal: 0,
                numbers: vec![],
            },
            table: table.to_vec(),
            words: call.output_words(),
            bytes: call.output_bytes(),
            questions: call.questions(),
            place: call.place(),
            stray: vec![],
        }
    }
}

/// Every way in which the archive's outcome differs from the second program's.
pub fn differences(archive: &Outcome, second: &Outcome) -> Vec<String> {
    let mut found = reply_differences(&archive.reply, &second.reply);
    found.extend(memory_differences(archive, second));
    found
}

/// "A refusal returns its number, all other numbers zero, and changes no lent
/// memory, the place included." Every way in which a refusal does not.
pub fn refusal_faults(before: &Outcome, after: &Outcome) -> Vec<String> {
    if after.reply.refusal == 0 {
        return vec![];
    }
    let numbers = after.reply.numbers.iter();
    let not_zero = numbers.filter(|(_, number)| *number != 0);
    let mut found: Vec<String> = not_zero
        .map(|(name, number)| format!("{name} is {number} at a refusal"))
        .collect();
    let changed = memory_differences(after, before);
    found.extend(changed.iter().map(|what| format!("a refusal, yet {what}")));
    found
}

fn reply_differences(archive: &Reply, second: &Reply) -> Vec<String> {
    let mut found = vec![];
    found.extend(one("refusal", &archive.refusal, &second.refusal));
    if archive.numbers.len() != second.numbers.len() {
        found.push("the replies have other numbers of fields".to_string());
    }
    for (a, b) in archive.numbers.iter().zip(&second.numbers) {
        found.extend(one(b.0, a, b));
    }
    found
}

fn memory_differences(archive: &Outcome, second: &Outcome) -> Vec<String> {
    let mut found = vec![];
    found.extend(cells("table word", &archive.table, &second.table));
    found.extend(cells("output word", &archive.words, &second.words));
    found.extend(cells("output byte", &archive.bytes, &second.bytes));
    found.extend(cells("question", &archive.questions, &second.questions));
    found.extend(one("place", &archive.place, &second.place));
    found.extend(one("memory written astray", &archive.stray, &second.stray));
    found
}

/// The difference of one value, if there is one.
fn one<T: PartialEq + Debug>(name: &str, archive: &T, second: &T) -> Option<String> {
    (archive != second).then(|| format!("{name}: archive {archive:?}, second {second:?}"))
}

/// The first difference of two rows of cells, and how many differ.
fn cells<T: PartialEq + Debug>(name: &str, archive: &[T], second: &[T]) -> Option<String> {
    if archive.len() != second.len() {
        return one(&format!("{name}s"), &archive.len(), &second.len());
    }
    let differ = |i: &usize| archive[*i] != second[*i];
    let first = (0..archive.len()).find(differ)?;
    let number = (first..archive.len()).filter(differ).count();
    let (a, b) = (&archive[first], &second[first]);
    Some(format!(
        "{name} {first}: archive {a:?}, second {b:?} ({number} differ)"
    ))
}
