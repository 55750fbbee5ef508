//! The keys of a table on pages.

use crate::{sys, unless_refused, Refusal, MOST_SLOTS};

const KEYS_OF_A_PAGE: usize = 50;
const PAGE_LINE: usize = 10;
const KEY_LINE: usize = 49;

/// No pages have more bytes.
pub const LONGEST_PAGES: usize = pages_bytes(MOST_SLOTS);

/// The bytes of the pages of so many keys; for as many keys as a table has slots, enough for any set that it can hold.
pub const fn pages_bytes(keys: usize) -> usize {
    let pages = match keys {
        0 => 1,
        _ => (keys + KEYS_OF_A_PAGE - 1) / KEYS_OF_A_PAGE,
    };
    PAGE_LINE * pages + KEY_LINE * keys
}

/// Write the keys on pages, a text to print and pin up, at the start of `out`; how many bytes it has. The keys rise, 50 of them on each
/// page; the last page has those that are left, one at least. Without keys there is one page with no key lines.
///
/// A key's line has the key, its rank, its count, its leader, which is zero for the root, and its size in Paris points, two half points
/// being one; a hyphen when it is not measured. Refusals: 1, 7, 11.
///
/// ```
/// let mut table = vec![0; btreap::table_words(64)];
/// btreap::build_measured(&mut table, 8, 0, &[42], &[26_500], &[0])?;
/// let mut text = vec![0; btreap::pages_bytes(1)];
/// assert_eq!(btreap::pages(&table, &mut text), Ok(text.len()));
/// assert_eq!(text, b"PAGE 0001\n000000000000002A    0    1 0000000000000000 40.0\n");
/// # Ok::<(), btreap::Refusal>(())
/// ```
pub fn pages(table: &[u64], out: &mut [u8]) -> Result<usize, Refusal> {
    // SAFETY: each pointer and the length beside it are one live slice's; a mutable and a shared slice do not overlap.
    let reply = unsafe { sys::btreap_pages(table.as_ptr(), table.len(), out.as_mut_ptr(), out.len()) };
    unless_refused(reply.refusal, reply.size as usize)
}
