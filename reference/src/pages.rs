//! Document 02, request N6: the library on paper.

use crate::calls::*;
use crate::measure::Measure;
use crate::points::points;
use crate::priority::Priority;
use crate::program::printed;
use crate::shape::Node;
use crate::table::shape_of;
use crate::Contents;

/// "then 50 key lines"
pub const KEYS_OF_A_PAGE: usize = 50;

/// The pages of an order and a set under a salt: 50 key lines on each, "rising; the last page may
/// have fewer, but has at least one".
pub fn pages(priority: Priority, contents: &Contents) -> String {
    let shape = shape_of(priority, contents);
    let set = contents.set.iter();
    let lines: Vec<String> = set
        .map(|(&key, &measure)| key_line(shape.node(key).unwrap(), measure))
        .collect();
    // "Only an empty library is one page with no key lines."
    if lines.is_empty() {
        return page(1, &[]);
    }
    let pages = lines.chunks(KEYS_OF_A_PAGE).enumerate();
    pages.map(|(i, lines)| page(i + 1, lines)).collect()
}

/// "A page is the line `PAGE` with a space, four digits, from 0001, and a line feed,
/// then" its key lines.
fn page(number: usize, lines: &[String]) -> String {
    format!("PAGE {number:04}\n{}", lines.concat())
}

/// "A key line is 48 characters and a line feed: key (16 hexadecimal digits, letters
/// capital), rank (4), count (4), leader (16 digits), size (4, as 40.0), with one space
/// between. Rank, count and size are right-aligned with spaces".
fn key_line(node: &Node, measure: Measure) -> String {
    let line = format!(
        "{:016X} {:>4} {:>4} {:016X} {:>4}\n",
        node.key,
        node.rank,
        node.count,
        node.leader,
        size(measure)
    );
    assert_eq!(line.len(), 48 + 1);
    line
}

/// The size in Paris points, two half points being one; "a last without size shows a
/// hyphen".
fn size(measure: Measure) -> String {
    let reply = points(measure);
    if !reply.measured {
        return "-".to_string();
    }
    match reply.half_points % 2 {
        0 => format!("{}.0", reply.half_points / 2),
        _ => format!("{}.5", reply.half_points / 2),
    }
}

impl Index<'_> {
    /// "The reply is the number of bytes written, and later output bytes are
    /// unchanged." "the checks are 1, 7, 11"
    pub fn pages(&self, table: &[u64], output: &mut [u8]) -> LengthReply {
        length(self.try_pages(table, output))
    }

    fn try_pages(&self, table: &[u64], output: &mut [u8]) -> Outcome<usize> {
        slots(table)?;
        let contents = self.contents(table)?;
        write_first(output, pages(self.priority, &contents).as_bytes())
    }
}

/// All that the program of the pages prints for its standard input. Document 02 names
/// no such program; it is the listing program with another text.
pub fn program(index: &Index, input: &[u8]) -> String {
    printed(index, input, |contents| pages(index.priority, contents))
}
