//! The program of the pages: an image on standard input, its pages on standard
//! output.

use reference::pages::program;
use reference::program::run;
use std::io;

fn main() -> io::Result<()> {
    run(program)
}
