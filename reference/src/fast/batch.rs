//! A batch of lookups in a table that was judged. The keys rise, so that those
//! whose search comes to a node are neighbours in the batch: each node is met
//! once for all of them.

use super::judged::Judged;
use super::record::*;
use crate::batch::Question;

/// A node, and the questions whose search comes to it: from one to before
/// another.
#[derive(Clone, Copy)]
struct Descent {
    number: u16,
    from: usize,
    to: usize,
}

impl Descent {
    /// Whether there is a node, and a search that comes to it.
    #[inline(always)]
    fn goes_on(&self) -> bool {
        (self.number != NONE) & (self.from < self.to)
    }
}

/// Whether the keys rise strictly and none is zero.
pub fn rises(questions: &[Question]) -> bool {
    let rise = |pair: &[Question]| pair[0].key < pair[1].key;
    questions.windows(2).all(rise) && questions.first().map_or(true, |first| first.key != 0)
}

/// Answers the questions, whose keys rise. Gives how many different blocks their
/// searches meet.
pub fn answer(judged: &Judged, questions: &mut [Question]) -> u64 {
    for question in questions.iter_mut() {
        (question.held, question.rank) = (0, 0);
    }
    let top = Descent {
        number: judged.root,
        from: 0,
        to: questions.len(),
    };
    let mut rest = vec![];
    let mut next = Some(top).filter(Descent::goes_on);
    let mut blocks = next.is_some() as u64;
    while let Some(descent) = next.or_else(|| rest.pop()) {
        let below = divide(judged, questions, descent);
        blocks += blocks_entered(judged, descent.number, below);
        let [left, right] = below.map(|descent| Some(descent).filter(Descent::goes_on));
        rest.extend(left.and(right));
        next = left.or(right);
    }
    blocks
}

/// Answers the question for the node's own key, if it is asked, and divides the
/// others between the node's children.
#[inline(always)]
fn divide(judged: &Judged, questions: &mut [Question], descent: Descent) -> [Descent; 2] {
    let Descent { number, from, to } = descent;
    let node = &judged.nodes[number as usize];
    let asked = &mut questions[from..to];
    let lesser = asked.partition_point(|question| question.key < node.key);
    let mut past = from + lesser;
    if let Some(same) = asked.get_mut(lesser).filter(|same| same.key == node.key) {
        (same.held, same.rank) = (1, node.rank);
        past += 1;
    }
    let [left, right] = judged.children[number as usize];
    [
        Descent {
            number: left,
            from,
            to: from + lesser,
        },
        Descent {
            number: right,
            from: past,
            to,
        },
    ]
}

/// How many blocks the searches enter from a node to its children.
///
/// A child of the node's level is in the node's block. Any other has the node
/// for its leader, so that its block is entered from nowhere else, and both
/// children are in one block just when their levels are the same.
#[inline(always)]
fn blocks_entered(judged: &Judged, number: u16, below: [Descent; 2]) -> u64 {
    let k = judged.nodes[judged.root as usize].rank;
    let level_of = |number: u16| level(judged.nodes[number as usize].rank, k);
    let here = level_of(number);
    let entered = |descent: Descent| {
        let there = descent.goes_on().then(|| level_of(descent.number));
        there.filter(|&there| there != here)
    };
    match below.map(entered) {
        [Some(left), Some(right)] => 1 + (left != right) as u64,
        [left, right] => left.or(right).is_some() as u64,
    }
}
