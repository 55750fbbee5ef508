//! From a key to its number, in constant time for keys that nobody chose
//! against it.

use super::record::NONE;

/// How many cells there are for each key, or up to twice as many.
const CELLS: usize = 8;

/// An open-addressed table of numbers. A key is in the first free cell at or
/// after the one where its search begins. Cells follow for all that may be
/// driven past the end, so that no search goes round.
pub struct Finder {
    cells: Vec<u16>,
    shift: u32,
}

impl Finder {
    /// An empty finder with room for so many keys.
    pub fn for_keys(number: usize) -> Finder {
        let starts = (CELLS * number.max(1)).next_power_of_two();
        Finder {
            cells: vec![NONE; starts + number + 2],
            shift: u64::BITS - starts.trailing_zeros(),
        }
    }

    /// Where the search for a key begins: by the high bits of its product with
    /// 2^64 divided by the golden ratio. Only zero's begins at the first cell.
    #[inline(always)]
    fn start(&self, key: u64) -> usize {
        (key.wrapping_mul(0x9E37_79B9_7F4A_7C15) >> self.shift) as usize + (key != 0) as usize
    }

    /// Adds a key, not zero. Of equal keys, the first one is found.
    #[inline(always)]
    pub fn add(&mut self, key: u64, number: u16) {
        let mut at = self.start(key);
        while self.cells[at] != NONE {
            at += 1;
        }
        self.cells[at] = number;
    }

    /// The number of a key; none when absent. Zero has the number `NONE`.
    #[inline(always)]
    pub fn find(&self, key: u64, key_of: impl Fn(u16) -> u64) -> Option<u16> {
        let mut at = self.start(key);
        loop {
            let number = self.cells[at];
            if key_of(number) == key {
                return Some(number);
            }
            if number == NONE {
                return None;
            }
            at += 1;
        }
    }
}
