//! Times the port against the original, both at release, in one run: words, draws, calls one at a time, fillings and shuffles, on every
//! kind and from the same seed, which is known at run time only. What the two sides answer, with the generators after it, is compared
//! before any time is printed. The runs of the two sides alternate, and the least of a hundred counts. Beside each ratio stands what it may
//! be.
//!
//! Usage: bench [SEED [WORDS [PICTURE]]]; without arguments the seed is 42 and the words of a loop, in all its runs, are 10^8. PICTURE is a
//! file to write as SVG.

mod bulk;
mod calls;
mod draws;
mod endless;
mod kinds;
mod machine;
mod peers;
mod picture;
mod timing;
mod words;

use std::hint::black_box;
use std::process::ExitCode;
use timing::Line;

/// Words of a loop in all its runs. Draws and single calls are a tenth of them.
const WORDS: u64 = 100_000_000;

fn main() -> ExitCode {
    match report() {
        Ok(()) => ExitCode::SUCCESS,
        Err(message) => {
            eprintln!("{message}");
            ExitCode::FAILURE
        }
    }
}

/// Times every case, then prints the table.
fn report() -> Result<(), String> {
    let seed = black_box(number(1)?.unwrap_or(42));
    let words = black_box(number(2)?.unwrap_or(WORDS)) / timing::RUNS;
    let few = words / 10;
    if few < timing::LEAST {
        return Err(format!("so few words say nothing: {} at least", 10 * timing::LEAST * timing::RUNS));
    }
    let families =
        [words::cases(seed, words), peers::cases(seed, words), draws::cases(seed, few), calls::cases(seed, few), bulk::cases(seed)];
    let lines = families.iter().flatten().map(timing::measure).collect::<Result<Vec<Line>, String>>()?;
    let title = format!("{}; {}; seed {seed}; least of {} runs", machine::cpu_model(), env!("BENCH_RUSTC"), timing::RUNS);
    println!("{title}");
    print_table(&lines);
    println!("peers: {}", peers::NOTE);
    println!("{}", endless::line()?);
    match std::env::args().nth(3) {
        Some(file) => std::fs::write(&file, picture::svg(&lines, &title)).map_err(|e| format!("{file} cannot be written: {e}")),
        None => Ok(()),
    }
}

/// A line for each row, and how many are above their limits.
fn print_table(lines: &[Line]) {
    println!(
        "{:<41} {:<20} {:>10} {:<5} {:>11} {:>8} {:>6} {:>7}",
        "what", "kind", "count", "unit", "original ns", "port ns", "ratio", "limit"
    );
    for line in lines {
        let Line { what, kind, unit, count, limit, original, port } = line;
        let above = if line.is_above() { " ABOVE" } else { "" };
        let ratio = line.ratio();
        println!("{what:<41} {kind:<20} {count:>10} {unit:<5} {original:>11.3} {port:>8.3} {ratio:>6.2} {limit:>7}{above}");
    }
    let above = lines.iter().filter(|line| line.is_above()).count();
    println!("{above} of {} rows above their limits", lines.len());
}

/// The whole number given as the program's k-th argument, if there is one.
fn number(k: usize) -> Result<Option<u64>, String> {
    let Some(text) = std::env::args().nth(k) else { return Ok(None) };
    text.parse().map(Some).map_err(|e| format!("'{text}' is not a whole number ({e}); usage: bench [SEED [WORDS [PICTURE]]]"))
}
