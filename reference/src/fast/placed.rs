//! Whether the keys of a table stand in the right slots, without placing them.

use super::node::Node;
use super::record::outranks;

/// Whether every key stands where placing puts it: all slots from its home to
/// the one before its own hold keys that outrank it.
///
/// The keys are gone through by slot, from one that no key was driven past. A
/// key that outranks this one has itself been found to be outranked by all that
/// it was driven past: those need no second look.
pub fn in_place(held: &[Node], slots: usize) -> bool {
    let number = held.len();
    let first = start_of_a_run(held, slots);
    let node = |turn: usize| &held[if turn < number { turn } else { turn - number }];
    let (mut run, mut next_slot) = (first, slots);
    for turn in first..first + number {
        let this = node(turn);
        let slot = this.slot as usize;
        run = if slot == next_slot { run } else { turn };
        next_slot = if slot + 1 == slots { 0 } else { slot + 1 };
        let home = turn.wrapping_sub(this.driven as usize);
        if this.driven as usize > turn - run {
            return false;
        }
        let mut above = turn;
        while above > home {
            let passed = node(above - 1);
            if !outranks(passed.entry(), this.entry()) {
                return false;
            }
            above = (above - 1).saturating_sub(passed.driven as usize);
        }
    }
    true
}

/// How many keys stand before one that stands after an empty slot or, in a full
/// table, after the key that all others outrank: no key was driven past either.
fn start_of_a_run(held: &[Node], slots: usize) -> usize {
    if held.len() == slots {
        let last = (0..slots).reduce(|a, b| {
            if outranks(held[a].entry(), held[b].entry()) {
                b
            } else {
                a
            }
        });
        return last.map_or(0, |last| (last + 1) % slots);
    }
    // Keys in slot 0 and those next to it may belong to a run that begins at the
    // table's end.
    let near_zero = (0..)
        .zip(held)
        .take_while(|(slot, node)| *slot == node.slot);
    near_zero.count() % held.len().max(1)
}
