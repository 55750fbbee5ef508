//! The listing of an image.

use super::image::{put, Block, Layout, Records};
use super::record::*;
use crate::blocks::fill;

/// The words of each kind of line, before its numbers.
const HEADER: [&str; 5] = ["order ", " keys ", " blocks ", " fill ", " root "];
const BLOCK: [&str; 3] = ["block ", " level ", " keys "];
const NODE: [&str; 3] = ["key ", " rank ", " count "];
const KEY_DIGITS: usize = 16;
const LINE_FEED: usize = 1;

/// The numbers of the header's line.
fn header_numbers<R: Records>(layout: &Layout<R>) -> [u64; 4] {
    let (keys, blocks) = (layout.keys() as u64, layout.blocks.len() as u64);
    [layout.order, keys, blocks, fill(layout.order, keys, blocks)]
}

fn block_numbers(block: Block) -> [u64; 2] {
    [block.level, block.keys as u64]
}

fn node_numbers(record: Record) -> [u64; 2] {
    [record[RANK], record[COUNT]]
}

/// The bytes of a line with these words, a key and these numbers.
#[inline(always)]
fn line_length(words: &[&str], numbers: &[u64]) -> usize {
    let words: usize = words.iter().map(|word| word.len()).sum();
    let digits: usize = numbers.iter().map(|&number| digits(number)).sum();
    words + digits + KEY_DIGITS + LINE_FEED
}

pub fn length<R: Records>(layout: &Layout<R>) -> usize {
    let node = |record| line_length(&NODE, &node_numbers(record));
    let parts = layout.parts().map(|(block, records)| {
        line_length(&BLOCK, &block_numbers(block)) + records.map(node).sum::<usize>()
    });
    line_length(&HEADER, &header_numbers(layout)) + parts.sum::<usize>()
}

/// Writes the listing into bytes of its length.
pub fn write<R: Records>(layout: &Layout<R>, bytes: &mut [u8]) {
    let mut rest = bytes;
    for (word, number) in HEADER.into_iter().zip(header_numbers(layout)) {
        put_text(&mut rest, word);
        put_decimal(&mut rest, number);
    }
    put_text(&mut rest, HEADER[4]);
    put(&mut rest, hexadecimal(layout.root));
    put(&mut rest, *b"\n");
    for (block, records) in layout.parts() {
        put_line(&mut rest, BLOCK, block.leader, block_numbers(block));
        records.for_each(|record| put_line(&mut rest, NODE, record[KEY], node_numbers(record)));
    }
}

#[inline(always)]
fn put_line(rest: &mut &mut [u8], words: [&str; 3], key: u64, numbers: [u64; 2]) {
    put_text(rest, words[0]);
    put(rest, hexadecimal(key));
    put_text(rest, words[1]);
    put_decimal(rest, numbers[0]);
    put_text(rest, words[2]);
    put_decimal(rest, numbers[1]);
    put(rest, *b"\n");
}

#[inline(always)]
fn put_text(rest: &mut &mut [u8], text: &str) {
    let (first, later) = std::mem::take(rest).split_at_mut(text.len());
    first.copy_from_slice(text.as_bytes());
    *rest = later;
}

/// "16 hexadecimal digits, letters capital": the sixteen half bytes spread over
/// sixteen bytes, then 7 more for each that is above 9.
pub fn hexadecimal(key: u64) -> [u8; KEY_DIGITS] {
    let mut wide = u128::from(key);
    for (shift, mask) in [
        (32, 0x0000_0000_FFFF_FFFF_0000_0000_FFFF_FFFF),
        (16, 0x0000_FFFF_0000_FFFF_0000_FFFF_0000_FFFF),
        (8, 0x00FF_00FF_00FF_00FF_00FF_00FF_00FF_00FF),
        (4, 0x0F0F_0F0F_0F0F_0F0F_0F0F_0F0F_0F0F_0F0F),
    ] {
        wide = (wide | (wide << shift)) & mask;
    }
    let ones = u128::MAX / 255;
    let above_nine = ((wide + 6 * ones) >> 4) & ones;
    (wide + 48 * ones + 7 * above_nine).to_be_bytes()
}

/// How many decimal digits a number has.
#[inline]
fn digits(number: u64) -> usize {
    match number {
        0..=9 => 1,
        10..=99 => 2,
        100..=999 => 3,
        _ => 3 + digits(number / 1000),
    }
}

#[inline(always)]
fn put_decimal(rest: &mut &mut [u8], number: u64) {
    let (first, later) = std::mem::take(rest).split_at_mut(digits(number));
    let mut left = number;
    for digit in first.iter_mut().rev() {
        *digit = b'0' + (left % 10) as u8;
        left /= 10;
    }
    *rest = later;
}
