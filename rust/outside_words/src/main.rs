//! Prints words of the original, a line for each: a name, then the words. The names are those of outside/checks.txt, where
//! the rows say which line is held against which line of another implementation.
//!
//! Usage: outside_words [FILE]. FILE has a line `python.mt.table` with 624 numbers: the table that the authors'
//! init_by_array makes, which the original has no call for.

mod mersenne_twister;
mod pcg;
mod xoshiro;

use std::fmt::Display;
use std::process::ExitCode;

fn main() -> ExitCode {
    mersenne_twister::print();
    xoshiro::print();
    pcg::print();
    let Some(path) = std::env::args().nth(1) else { return ExitCode::SUCCESS };
    match mersenne_twister::print_by_array(&path) {
        Ok(()) => ExitCode::SUCCESS,
        Err(message) => {
            eprintln!("{message}");
            ExitCode::FAILURE
        }
    }
}

/// One line: the name, then the words.
fn line<W: Display>(name: &str, words: impl IntoIterator<Item = W>) {
    let words: Vec<String> = words.into_iter().map(|word| word.to_string()).collect();
    println!("vrd.{name} {}", words.join(" "));
}

/// One line, the words as hexadecimal numbers.
fn hex(name: &str, words: impl IntoIterator<Item = u64>) {
    line(name, words.into_iter().map(|word| format!("{word:x}")));
}
