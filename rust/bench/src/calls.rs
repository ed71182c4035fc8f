//! One call at a time, as a Rust program makes them: the original's methods, and those of the package `vrd`. On both sides the
//! generator passes through a black box before each call, so that it stands in memory between calls, as it does in a program
//! that draws now and then. Otherwise the compiler would keep the original's few words in registers all through the loop.

use crate::draws::{BOUND, BUDGET};
use crate::kinds;
use crate::timing::{timed, Case, Limit};
use std::hint::black_box;
use vrd::{Drawn, Refusal};
use vrd_original::Random as Original;

/// The call's name, its limit and both sides: the XOR of n answers.
type Row = (&'static str, f64, fn(&mut Original, u64) -> u64, fn(&mut vrd::Random, u64) -> u64);

/// The limits: of words, of draws within a budget, and of floats.
const WORD: f64 = 1.35;
const DRAW: f64 = 1.7;
const FLOAT: f64 = 1.5;

/// What `choose` and `rand_slice` draw from.
static LIST: [u32; 40] = {
    let mut list = [0; 40];
    let mut place = 0;
    while place < list.len() {
        list[place] = 7 * place as u32 + 3;
        place += 1;
    }
    list
};

/// The length of the part that `rand_slice` draws.
const WINDOW: usize = 10;

/// A row: on each side the loop over the call is a function of its own.
macro_rules! row {
    ($what:literal, $limit:expr, $original:expr, $port:expr) => {{
        #[inline(never)]
        fn original(g: &mut Original, n: u64) -> u64 {
            xor(g, n, $original)
        }
        #[inline(never)]
        fn port(g: &mut vrd::Random, n: u64) -> u64 {
            xor(g, n, $port)
        }
        (concat!($what, ", a call at a time"), $limit, original, port)
    }};
}

const ROWS: [Row; 14] = [
    row!("rand", WORD, |g| g.rand().into(), |g| g.rand().into()),
    row!("u64", WORD, |g| g.u64(), |g| g.u64()),
    row!("i64", WORD, |g| g.i64() as u64, |g| g.i64() as u64),
    row!("bounded(40)", DRAW, |g| g.bounded(BOUND).into(), |g| number(g.bounded(BOUND, BUDGET), u64::from)),
    row!("random_range(5, 45)", DRAW, |g| g.random_range(5, 45).into(), |g| number(g.random_range(5, 45, BUDGET), u64::from)),
    row!("int(-5, 34)", DRAW, |g| g.int(-5, 34) as u64, |g| number(g.int(-5, 34, BUDGET), |value| value as u64)),
    row!("uint(5, 44)", DRAW, |g| g.uint(5, 44).into(), |g| number(g.uint(5, 44, BUDGET), u64::from)),
    row!("char", DRAW, |g| u32::from(g.char()).into(), |g| number(g.char(BUDGET), |letter| u32::from(letter).into())),
    row!("choose of 40", DRAW, |g| g.choose(&LIST).map_or(0, |&entry| entry.into()), |g| {
        number(g.choose(&LIST, BUDGET), |bottle| bottle.number.into())
    }),
    row!("rand_slice of 40", DRAW, |g| g.rand_slice(&LIST, WINDOW).map_or(0, |part| part[0].into()), |g| {
        number(g.rand_slice(&LIST, WINDOW, BUDGET), |part| part[0].into())
    }),
    row!("float", FLOAT, |g| g.float().to_bits().into(), |g| g.float().to_bits().into()),
    row!("double", FLOAT, |g| g.double().to_bits(), |g| g.double().to_bits()),
    row!("bool(0.25)", FLOAT, |g| g.bool(0.25).into(), |g| number(g.bool(0.25), u64::from)),
    row!("uniform(-2, 6)", FLOAT, |g| g.uniform(-2.0, 6.0).to_bits(), |g| g.uniform(-2.0, 6.0).map_or(u64::MAX, f64::to_bits)),
];

pub fn cases(seed: u64, calls: u64) -> Vec<Case> {
    let case = |(what, limit, original, port): Row, kind: usize| Case {
        what,
        kind: kinds::NAMES[kind],
        count: calls,
        unit: "call",
        limit: Limit::Times(limit),
        original: Box::new(move || {
            timed(kinds::original(kind, seed), |g| original(g, calls), |xor, g| [vec![xor], kinds::original_parts(g)].concat())
        }),
        port: Box::new(move || timed(kinds::port(kind, seed), |g| port(g, calls), |xor, g| [vec![xor], kinds::port_parts(g)].concat())),
    };
    ROWS.into_iter().flat_map(|row| (0..4).map(move |kind| case(row, kind))).collect()
}

/// The XOR of n answers, each of a generator that stands in memory.
fn xor<G>(g: &mut G, n: u64, call: impl Fn(&mut G) -> u64) -> u64 {
    (0..n).fold(0, |xor, _| xor ^ call(black_box(&mut *g)))
}

/// What was drawn as 64 bits; a refusal is told from every answer.
fn number<T>(answer: Result<Drawn<T>, Refusal>, bits: impl Fn(T) -> u64) -> u64 {
    answer.map_or(u64::MAX, |drawn| bits(drawn.value))
}
