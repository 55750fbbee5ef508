//! Compares the archive with the second program. The last line counts the calls
//! that agreed and those that did not.

use compare::options::{Options, USAGE};
use compare::run::run;
use std::env;
use std::process::ExitCode;
use std::thread::available_parallelism;

fn main() -> ExitCode {
    let threads = available_parallelism().map_or(1, |number| number.get());
    let outcome = Options::parse(env::args().skip(1), threads).and_then(|options| run(&options));
    match outcome {
        Ok((total, good)) => {
            println!("{} passed, {} failed", total.passed, total.failed);
            ExitCode::from(u8::from(!good))
        }
        Err(problem) => {
            eprintln!("{problem}\n{USAGE}");
            ExitCode::from(2)
        }
    }
}
