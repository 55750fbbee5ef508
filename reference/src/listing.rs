//! The listing of an image, and the listing program.

use crate::blocks::{blocks, fill};
use crate::calls::Index;
use crate::priority::Priority;
use crate::program::printed;
use crate::table::shape_of;
use crate::Contents;

/// "There is one line for the header, each block and each key, in image order;
/// a block line shows the block's leader key, level and keys in it. Every line
/// the program prints ends in a line feed. Keys are 16 hexadecimal digits,
/// letters capital; other numbers are base ten without leading zeros." "The listing's
/// lines show no measures"; "the listing shows no salt".
pub fn listing(priority: Priority, contents: &Contents) -> String {
    let shape = shape_of(priority, contents);
    let blocks = blocks(&shape);
    let (n, b) = (contents.set.len() as u64, blocks.len() as u64);
    let mut text = format!(
        "order {} keys {} blocks {} fill {} root {:016X}\n",
        contents.order,
        n,
        b,
        fill(contents.order, n, b),
        shape.root
    );
    for block in &blocks {
        text += &format!(
            "block {:016X} level {} keys {}\n",
            block.leader,
            block.level,
            block.keys.len()
        );
        for &key in &block.keys {
            let node = shape.node(key).unwrap();
            text += &format!("key {:016X} rank {} count {}\n", key, node.rank, node.count);
        }
    }
    text
}

/// All that the listing program prints for its standard input.
pub fn program(index: &Index, input: &[u8]) -> String {
    printed(index, input, |contents| listing(index.priority, contents))
}
