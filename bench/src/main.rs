//! Times and stack use of the library's calls. See `README.md`.

mod agree;
mod batch;
mod black_box;
mod candidates;
mod case;
mod clock;
mod depths;
mod load;
mod measures;
mod pages;
mod plain;
mod points;
mod report;
mod rows;
mod salts;
mod stack;
mod timing;

use std::env::args;
use std::process::ExitCode;

fn main() -> ExitCode {
    let arguments: Vec<String> = args().skip(1).collect();
    match arguments.iter().map(String::as_str).collect::<Vec<_>>()[..] {
        [] => report::print(),
        ["--stack"] => depths::print(),
        _ => {
            eprintln!("usage: bench [--stack]");
            return ExitCode::FAILURE;
        }
    }
    ExitCode::SUCCESS
}
