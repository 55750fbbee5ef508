//! The programs that read an image on standard input and print a text of it: the
//! listing, and the pages, which are printed as the listing is.

use crate::calls::{Index, REAL};
use crate::table::length_of_slots;
use crate::Contents;
use std::io::{self, Read, Write};

/// "The listing program reads an image on standard input, into 1,000 slots."
pub const SLOTS: usize = 1000;

/// "More than 44,015 bytes prints `too long`"; now "its byte limit is 50,023".
pub const LONGEST_INPUT: usize = 50_023;

/// All that is printed for an input: the text of the order, the salt and the set whose
/// image it is.
pub fn printed(index: &Index, input: &[u8], text: impl FnOnce(&Contents) -> String) -> String {
    if input.len() > LONGEST_INPUT {
        return "too long\n".to_string();
    }
    let mut table = vec![0; length_of_slots(SLOTS)];
    let reply = index.read_image(&mut table, input);
    if reply.refusal != 0 {
        // "a refusal prints `refused`, a space and its number"
        return format!("refused {}\n", reply.refusal);
    }
    text(&index.sound(&table).expect("just read"))
}

/// Reads standard input, as much of it as matters, and prints what the program does.
pub fn run(program: fn(&Index, &[u8]) -> String) -> io::Result<()> {
    let mut input = vec![];
    io::stdin()
        .take(LONGEST_INPUT as u64 + 1)
        .read_to_end(&mut input)?;
    io::stdout().write_all(program(&REAL, &input).as_bytes())
}
