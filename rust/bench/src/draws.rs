//! Words and draws below 40 of the facade in a row: the original's loops, and those that the port exports, by value and, of draws, over a
//! lent generator. The words XORed, the sums, the words used and the generators after them are compared.

use crate::kinds;
use crate::timing::{timed, Case, Limit, Run};
use port::{State, Sums, Table};

/// The bound, and a budget that no draw comes near.
pub const BOUND: u32 = 40;
pub const BUDGET: u32 = 1_000;

/// A loop by value copies the table in and out at each turn, and so has fewer turns.
const BY_VALUE: Limit = Limit::Nanoseconds(200.0);
const FEWER: u64 = 10;

type Draws = extern "C" fn(&mut State, &mut Table, u32, u32, u64) -> Sums;

pub fn cases(seed: u64, turns: u64) -> Vec<Case> {
    let few = turns / FEWER;
    let draws: [(&str, u64, Limit, Draws); 2] = [
        ("draw below 40, loop over a lent generator", turns, Limit::Times(2.0), port::bench_draws_in),
        ("draw below 40, loop by value", few, BY_VALUE, port::bench_draws_by_value),
    ];
    let kinds = || (0..4).map(|kind| (kind, kinds::NAMES[kind]));
    let word_cases = kinds().map(|(kind, name)| Case {
        what: "rand, loop by value",
        kind: name,
        count: few,
        unit: "word",
        limit: BY_VALUE,
        original: Box::new(move || original_words(kind, seed, few)),
        port: Box::new(move || port_words(kind, seed, few)),
    });
    let draw_cases = draws.into_iter().flat_map(|(what, count, limit, call)| {
        kinds().map(move |(kind, name)| Case {
            what,
            kind: name,
            count,
            unit: "draw",
            limit,
            original: Box::new(move || original_draws(kind, seed, count)),
            port: Box::new(move || port_draws(kind, seed, count, call)),
        })
    });
    word_cases.chain(draw_cases).collect()
}

#[inline(never)]
fn xored(g: &mut vrd_original::Random, n: u64) -> u64 {
    (0..n).fold(0, |xor, _| xor ^ u64::from(g.rand()))
}

fn original_words(kind: usize, seed: u64, n: u64) -> Run {
    timed(kinds::original(kind, seed), |g| xored(g, n), |xor, g| [vec![xor], kinds::original_parts(g)].concat())
}

fn port_words(kind: usize, seed: u64, n: u64) -> Run {
    timed(
        kinds::lent(kind, seed),
        |g| port::bench_words_by_value(&mut g.0, &mut g.1, n),
        |word, g| [vec![word.value], kinds::lent_parts(g)].concat(),
    )
}

#[inline(never)]
fn summed(g: &mut vrd_original::Random, n: u64) -> u64 {
    (0..n).fold(0, |sum, _| sum + u64::from(g.bounded(BOUND)))
}

/// The words used are counted afterwards: so many words bring the generator from where it began to where it stands.
fn original_draws(kind: usize, seed: u64, n: u64) -> Run {
    timed(
        kinds::original(kind, seed),
        |g| summed(g, n),
        |sum, g| {
            let end = kinds::original_parts(g);
            let mut walker = kinds::original(kind, seed);
            let mut used = 0;
            // A draw takes a word at least, so the first n need no look.
            while used < n || kinds::original_parts(&walker) != end {
                walker.rand();
                used += 1;
            }
            [vec![sum, used], end].concat()
        },
    )
}

fn port_draws(kind: usize, seed: u64, n: u64, call: Draws) -> Run {
    timed(
        kinds::lent(kind, seed),
        |g| call(&mut g.0, &mut g.1, BOUND, BUDGET, n),
        |sums, g| [vec![sums.sum, sums.used], kinds::lent_parts(g)].concat(),
    )
}
