//! The listing program: an image on standard input, its listing on standard
//! output.

use reference::listing::program;
use reference::program::run;
use std::io;

fn main() -> io::Result<()> {
    run(program)
}
