//! Document 02's promised ceiling for lookups, held against those of the archive.

use crate::call::Call;
use crate::outcome::Outcome;
use crate::tables::root_rank_in;
use reference::ceiling::{blocks_ceiling, rank_ceiling};
use reference::is_order;

/// "the root's rank is at most (n − 1)/(α − 1) rounded up, and a lookup meets at most
/// that many blocks, or one when the rank is 0": every way in which an accepted lookup
/// goes beyond. Nor does any meet more blocks than the root's own rank, or one.
pub fn ceiling_faults(call: &Call, table: &[u64], after: &Outcome) -> Vec<String> {
    let is_accepted = after.reply.refusal == 0 && matches!(call, Call::LookUp { .. });
    let (order, keys) = match table {
        [order, keys, ..] if is_accepted && is_order(*order) => (*order, *keys),
        // That a table without an order is accepted is a difference anyway.
        _ => return vec![],
    };
    let (rank, blocks) = (root_rank_in(table), after.reply.number("blocks"));
    let rank_faults = beyond("the root's rank", rank, rank_ceiling(order, keys));
    let blocks_faults = blocks.into_iter().flat_map(|blocks| {
        let most = blocks_ceiling(order, keys, rank).min(rank.max(1));
        beyond("the number of blocks met", blocks, most)
    });
    rank_faults.into_iter().chain(blocks_faults).collect()
}

/// What is said of a number that is above its ceiling.
pub fn beyond(name: &str, number: u64, most: u64) -> Option<String> {
    (number > most).then(|| format!("{name} is {number}, and {most} is the ceiling"))
}

/// What is said of an outcome that is not an acceptance with just this number under the
/// name.
pub fn missed(after: &Outcome, name: &str, due: u64) -> Option<String> {
    let given = (after.reply.refusal, after.reply.number(name));
    (given != (0, Some(due))).then(|| format!("refusal and {name} are {given:?}, and {due} is due"))
}

#[cfg(test)]
mod tests {
    use super::*;
    use crate::keys::keys_at;
    use crate::second_program::run_second_program;
    use crate::tables::{slot_start, sound_table};
    use reference::Contents;

    /// Document 01's example F: five keys of order 3 in one block, where the ceiling is
    /// two; a table and the lookup of its least key.
    fn example_f() -> (Vec<u64>, Call, Outcome) {
        let salt = 77;
        let keys = keys_at(salt, &[3, 1, 0, 2, 4]);
        let table = sound_table(5, &Contents::unmeasured(3, &keys).salted(salt));
        let call = Call::LookUp { key: keys[0] };
        let outcome = run_second_program(&call, &table);
        (table, call, outcome)
    }

    #[test]
    fn a_rank_beyond_the_ceiling_is_a_fault() {
        let (mut table, call, outcome) = example_f();
        let is_root = |&slot: &usize| table[slot_start(slot)] == table[2];
        let rank_word = slot_start((0..5).find(is_root).expect("a root")) + 4;
        for (rank, faults) in [(1, 0), (2, 0), (3, 1)] {
            table[rank_word] = rank;
            assert_eq!(ceiling_faults(&call, &table, &outcome).len(), faults);
        }
    }

    /// Two blocks are within the ceiling of five keys, but not at a root of rank 1.
    #[test]
    fn blocks_beyond_the_rank_of_the_root_are_a_fault() {
        let (table, call, mut outcome) = example_f();
        assert_eq!(blocks_ceiling(3, 5, 1), 2);
        for (blocks, faults) in [(1, 0), (2, 1), (3, 1)] {
            outcome.reply.numbers[4].1 = blocks;
            assert_eq!(ceiling_faults(&call, &table, &outcome).len(), faults);
        }
    }

    #[test]
    fn a_refusal_and_a_table_without_an_order_have_no_ceiling() {
        let (mut table, call, mut outcome) = example_f();
        outcome.reply.numbers[4].1 = 9;
        table[0] = 1;
        assert_eq!(ceiling_faults(&call, &table, &outcome), [""; 0]);
        assert_eq!(ceiling_faults(&call, &[], &outcome), [""; 0]);
        table[0] = 3;
        outcome.reply.refusal = 7;
        assert_eq!(ceiling_faults(&call, &table, &outcome), [""; 0]);
    }

    #[test]
    fn a_number_that_is_not_the_one_due_is_missed() {
        let (_, _, mut outcome) = example_f();
        assert_eq!(missed(&outcome, "blocks", 1), None);
        assert!(missed(&outcome, "blocks", 2).is_some());
        assert!(missed(&outcome, "blocks", 0).is_some());
        assert!(missed(&outcome, "fewer", 1).is_some());
        outcome.reply.refusal = 7;
        assert!(missed(&outcome, "blocks", 1).is_some());
    }
}
