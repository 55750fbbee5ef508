//! Runs the archive and the second program on the same inputs and compares
//! all that a call answers and all the memory that it was lent.

pub mod archive;
pub mod batches;
pub mod call;
pub mod case;
pub mod ceiling;
pub mod fill;
pub mod generator;
pub mod keys;
pub mod list;
pub mod measures;
pub mod options;
pub mod outcome;
pub mod pages;
pub mod random;
pub mod run;
pub mod salts;
pub mod second_program;
pub mod sections;
pub mod tables;
