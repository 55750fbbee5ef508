//! Document 02's fill and its two ceilings of a block, held against the archive's listings.

use crate::call::Call;
use crate::ceiling::beyond;
use crate::outcome::Outcome;
use reference::blocks::{most_in_other_block, most_in_root_block};
use reference::is_order;

/// Every way in which an accepted listing goes against document 02, as far as it can be
/// seen in the text alone.
pub fn listing_faults(call: &Call, after: &Outcome) -> Vec<String> {
    if after.reply.refusal != 0 || !matches!(call, Call::List { .. }) {
        return vec![];
    }
    match text_of(after).and_then(Listing::read) {
        Some(listing) => listing.faults(),
        None => vec!["the listing cannot be read".to_string()],
    }
}

/// What is said of an outcome that is not a listing with just this fill.
pub fn missed_fill(after: &Outcome, due: u64) -> Option<String> {
    let listing = text_of(after).and_then(Listing::read);
    let given = (after.reply.refusal, listing.map(|listing| listing.fill));
    (given != (0, Some(due))).then(|| format!("refusal and fill are {given:?}, and {due} is due"))
}

/// The written part of the output.
fn text_of(after: &Outcome) -> Option<&str> {
    let length = usize::try_from(after.reply.number("size")?).ok()?;
    std::str::from_utf8(after.bytes.get(..length)?).ok()
}

/// The numbers of a listing's first line, and the keys that each block line tells of.
struct Listing {
    order: u64,
    keys: u64,
    blocks: u64,
    fill: u64,
    held: Vec<u64>,
}

impl Listing {
    fn read(text: &str) -> Option<Listing> {
        let (header, lines) = text.split_once('\n')?;
        let words: Vec<&str> = header.split(' ').collect();
        let (order, keys, blocks, fill) = match words[..] {
            ["order", order, "keys", keys, "blocks", blocks, "fill", fill, "root", _] => {
                (order, keys, blocks, fill)
            }
            _ => return None,
        };
        let block_lines = lines.lines().filter(|line| line.starts_with("block "));
        let listing = Listing {
            order: number(order)?,
            keys: number(keys)?,
            blocks: number(blocks)?,
            fill: number(fill)?,
            held: block_lines.map(last_number).collect::<Option<_>>()?,
        };
        is_order(listing.order).then_some(listing)
    }

    fn faults(&self) -> Vec<String> {
        let (lines, blocks) = (self.held.len() as u64, self.blocks);
        let lines_fault =
            (lines != blocks).then(|| format!("{lines} block lines, and {blocks} blocks are told"));
        let fill = self.fill;
        let fill_fault = (!self.has_fill()).then(|| format!("fill {fill} is not by the rule"));
        let mut found = self.block_faults();
        found.extend(lines_fault);
        found.extend(fill_fault);
        found.extend(beyond("fill", fill, 100));
        found
    }

    /// Each block that holds more than its ceiling.
    fn block_faults(&self) -> Vec<String> {
        let held = self.held.iter().enumerate();
        let fault = |(place, &keys)| {
            let name = format!("the number of keys in block {place}");
            beyond(&name, keys, self.ceiling(place as u64))
        };
        held.filter_map(fault).collect()
    }

    /// "Only the root block can reach 2α−1 keys; any other stops at 2α−2." The root block
    /// is the first.
    fn ceiling(&self, place: u64) -> u64 {
        match place {
            0 => most_in_root_block(self.order),
            _ => most_in_other_block(self.order),
        }
    }

    /// "Fill becomes 100·n / ((2α−1) + (b−1)·(2α−2)) rounded down, still 0 when empty": of
    /// the sum of the ceilings, so many hundredths are no more than the keys, and one more
    /// hundredth is.
    fn has_fill(&self) -> bool {
        let room: u64 = (0..self.blocks).map(|place| self.ceiling(place)).sum();
        let hundredths = 100 * self.keys;
        match self.keys {
            0 => self.fill == 0,
            _ => (self.fill * room..(self.fill + 1) * room).contains(&hundredths),
        }
    }
}

/// A number as listings have them; none is above 65,535, so that no reckoning overflows.
fn number(word: &str) -> Option<u64> {
    word.parse::<u16>().ok().map(u64::from)
}

fn last_number(line: &str) -> Option<u64> {
    line.rsplit(' ').next().and_then(number)
}

#[cfg(test)]
mod tests {
    use super::*;
    use crate::second_program::run_second_program;
    use crate::tables::image_of;
    use reference::Contents;

    /// The listing of these keys of order 3, and more room than it takes.
    fn listed(keys: &[u64]) -> (Call, Outcome) {
        let (image, room) = (image_of(&Contents::unmeasured(3, keys)), 1000);
        let call = Call::List { image, room };
        let outcome = run_second_program(&call, &[]);
        (call, outcome)
    }

    #[test]
    fn a_true_listing_has_no_fault() {
        for keys in [&[][..], &[5], &[5, 9, 10, 11, 12, 13]] {
            let (call, outcome) = listed(keys);
            assert_eq!(listing_faults(&call, &outcome), [""; 0]);
        }
    }

    #[test]
    fn only_an_accepted_listing_is_read() {
        let (call, mut outcome) = listed(&[5]);
        outcome.reply.numbers[0].1 = 1001;
        let faults = listing_faults(&call, &outcome);
        assert_eq!(faults, ["the listing cannot be read"]);
        let writing = Call::Write { room: 1000 };
        assert_eq!(listing_faults(&writing, &outcome), [""; 0]);
        outcome.reply.refusal = 11;
        assert_eq!(listing_faults(&call, &outcome), [""; 0]);
    }

    #[test]
    fn a_fill_that_is_not_the_one_due_is_missed() {
        let (_, mut outcome) = listed(&[5]);
        assert_eq!(missed_fill(&outcome, 20), None);
        assert!(missed_fill(&outcome, 19).is_some());
        outcome.reply.refusal = 11;
        assert!(missed_fill(&outcome, 20).is_some());
        outcome.reply = listed(&[]).1.reply;
        assert!(missed_fill(&outcome, 20).is_some());
        assert_eq!(missed_fill(&listed(&[]).1, 0), None);
    }
}
