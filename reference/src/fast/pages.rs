//! The library on paper.

use super::image::put;
use super::judged::Judged;
use super::listing::hexadecimal;
use super::node::Node;
use super::points::nearest;
use super::stored::Stored;
use crate::measure::GREATEST_CORRECTION;
use crate::pages::KEYS_OF_A_PAGE;

const PAGE_BYTES: usize = 10;
const LINE_BYTES: usize = 49;

/// A number or a size, right-aligned.
type Field = [u8; 4];

/// The bytes of the pages of so many keys.
pub fn length(keys: usize) -> usize {
    let pages = (keys + KEYS_OF_A_PAGE - 1) / KEYS_OF_A_PAGE;
    PAGE_BYTES * pages.max(1) + LINE_BYTES * keys
}

/// Writes the pages into bytes of their length.
pub fn write(judged: &Judged, bytes: &mut [u8]) {
    let mut rest = bytes;
    let rising = judged.rising();
    if rising.is_empty() {
        put(&mut rest, page_line(1));
    }
    for (i, numbers) in rising.chunks(KEYS_OF_A_PAGE).enumerate() {
        put(&mut rest, page_line(i + 1));
        for &number in numbers {
            put(&mut rest, key_line(&judged.nodes[number as usize]));
        }
    }
}

/// No table has a hundred pages.
fn page_line(number: usize) -> [u8; PAGE_BYTES] {
    let mut line = *b"PAGE 00--\n";
    line[7] = b'0' + (number / 10) as u8;
    line[8] = b'0' + (number % 10) as u8;
    line
}

#[inline(always)]
fn key_line(node: &Node) -> [u8; LINE_BYTES] {
    let mut line = [b' '; LINE_BYTES];
    line[..16].copy_from_slice(&hexadecimal(node.key));
    line[17..21].copy_from_slice(&right_aligned(node.rank));
    line[22..26].copy_from_slice(&right_aligned(node.count));
    line[27..43].copy_from_slice(&hexadecimal(node.leader));
    line[44..48].copy_from_slice(&size(node.measure));
    line[48] = b'\n';
    line
}

/// A number of at most four digits; most have one.
#[inline(always)]
fn right_aligned(number: u64) -> Field {
    let mut field = [b' ', b' ', b' ', b'0' + (number % 10) as u8];
    let mut place = 3;
    let mut left = number / 10;
    while left != 0 {
        place -= 1;
        field[place] = b'0' + (left % 10) as u8;
        left /= 10;
    }
    field
}

/// "size (4, as 40.0)", from 7.5 to 67.5; "a last without size shows a hyphen".
#[inline(always)]
fn size(measure: Stored) -> Field {
    if measure.length == 0 {
        return *b"   -";
    }
    let raised = u32::from(measure.length) + u32::from(measure.correction);
    let half_points = nearest(3 * (raised - GREATEST_CORRECTION as u32)) as u8;
    let points = half_points / 2;
    let tens = match points / 10 {
        0 => b' ',
        tens => b'0' + tens,
    };
    [tens, b'0' + points % 10, b'.', b'0' + 5 * (half_points % 2)]
}
