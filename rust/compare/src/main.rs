//! Compares the port with the original Rust. Each generator through its own exports: makers, single steps, loops of words, jump,
//! twist, set_mti and states set by hand. The facade over them through the package vrd: every call, on every kind; the exports of the
//! facade where that package can't ask; and the library's calls by value in a row. Progress goes to standard error, the table to standard
//! output; the status is not 0 where anything differs.

mod facade;
mod fence;
mod pcg32;
mod pcg64;
mod seeds;
mod subject;
mod tally;
mod twister;
mod wrapping;
mod xoshiro;

use std::process::ExitCode;

/// Words of each generator drawn through the exported loops.
const LOOP_WORDS: u64 = 10_000_000;

/// Words of each generator and call drawn one by one.
const STEP_WORDS: u64 = 1_000_000;

fn main() -> ExitCode {
    let mut tally = tally::Tally::default();
    wrapping::compare(&mut tally);
    xoshiro::compare(&mut tally);
    pcg32::compare(&mut tally);
    pcg64::compare(&mut tally);
    twister::compare(&mut tally);
    facade::compare(&mut tally);
    print!("{tally}");
    if tally.differences() == 0 {
        ExitCode::SUCCESS
    } else {
        ExitCode::FAILURE
    }
}
