//! The rows of each call, from generators of every kind and maker, and the rows of each maker.

use crate::call::Call;
use crate::row::{row, Allowance, Row};
use crate::start::{Maker, Start};
use simple::Simple;

/// Rows of each kind in a call's file.
const ROWS: usize = 30;

/// Rows of each kind in a maker's file.
const MADE: usize = 30;

type Arguments = fn(usize, &mut Simple) -> [u32; 4];

/// Each call with its file's name and how its arguments are picked.
const CALLS: [(&str, Call, Arguments); 23] = [
    ("rand", Call::Rand, nothing),
    ("u64", Call::U64, nothing),
    ("i64", Call::I64, nothing),
    ("pseudo", Call::Pseudo, nothing),
    ("seed", Call::Seed, |turn, simple| [edge(turn, simple), 0, 0, 0]),
    ("split", Call::Split, nothing),
    ("mti", Call::Mti, nothing),
    ("set_mti", Call::SetMti, |turn, simple| [[0, 1, 226, 227, 623, 624].get(turn).copied().unwrap_or_else(|| simple.below(625)), 0, 0, 0]),
    ("twist", Call::Twist, nothing),
    ("fill_bytes", Call::FillBytes, |turn, _| [(turn * turn * 3 - turn) as u32 / 2 % 2_600, 0, 0, 0]),
    ("bounded", Call::Bounded, |turn, simple| [bound(turn, simple), 0, 0, 0]),
    ("random_range", Call::RandomRange, |turn, simple| {
        let bound = bound(turn, simple);
        let min = simple.word() % (u32::MAX - bound + 1).max(1);
        [min, min + bound, 0, 0]
    }),
    ("int", Call::Int, signed),
    ("range", Call::Range, signed),
    ("uint", Call::Uint, ends),
    ("char", Call::Char, nothing),
    ("choose", Call::Choose, |turn, simple| [length(turn, simple), 0, 0, 0]),
    ("float", Call::Float, nothing),
    ("double", Call::Double, nothing),
    ("bool", Call::Bool, |turn, simple| halves(chance(turn, simple), 0.0)),
    ("uniform", Call::Uniform, |turn, simple| {
        let (low, high) = interval(turn, simple);
        halves(low, high)
    }),
    ("shuffle", Call::Shuffle, |turn, simple| [length(turn, simple), 0, 0, 0]),
    ("rand_slice", Call::RandSlice, |turn, simple| {
        let length = length(turn, simple);
        let window = [1, 2, length / 2, length - 1, length][turn / 2 % 5].max(1);
        [length, window, 0, 0]
    }),
];

/// The files of the calls: every kind and maker, budgets that are enough.
pub fn calls() -> Vec<(String, Vec<Row>)> {
    let file = |(name, call, arguments): (&str, Call, Arguments)| {
        let mut simple = Simple::new(call as u64 + 1);
        let mut rows = Vec::new();
        for kind in 0..4 {
            for turn in 0..ROWS {
                let start = Start::any(kind, turn, &mut simple);
                let allowance = [Allowance::Exactly, Allowance::OneMore, Allowance::Most][turn % 3];
                rows.push(row(call, start, arguments(turn, &mut simple), allowance));
            }
        }
        (name.to_string(), rows)
    };
    CALLS.map(file).into()
}

/// The files of the makers: the generator as it is made.
pub fn makers() -> Vec<(String, Vec<Row>)> {
    let makers = [("seeds", Maker::Seed, 0), ("streams", Maker::Stream, 2), ("bytes", Maker::Bytes, 0), ("parts", Maker::Parts, 0)];
    let file = |(name, maker, first_kind): (&str, Maker, u32)| {
        let mut simple = Simple::new(100 + maker as u64);
        let mut rows = Vec::new();
        for kind in first_kind..4 {
            for turn in 0..MADE {
                let start = Start::new(kind, maker, made_of(kind, maker, turn, &mut simple));
                rows.push(row(Call::Made, start, [0; 4], Allowance::Most));
            }
        }
        (name.to_string(), rows)
    };
    makers.map(file).into()
}

/// Eight words for a maker: the edges of every width first. No seed folds to 0, and no position is above 624: they have files of their own.
fn made_of(kind: u32, maker: Maker, turn: usize, simple: &mut Simple) -> [u32; 8] {
    let mut words = match (maker, turn) {
        (Maker::Parts, 0) => [0; 8],
        (_, 0) => [1, 0, 0, 0, 0, 0, 0, 0],
        (Maker::Parts | Maker::Stream | Maker::Seed, 1) => [u32::MAX; 8],
        (_, 2..10) => [0; 8].map(|_| 1 << simple.below(32)),
        _ => [0; 8].map(|_| simple.word()),
    };
    if maker == Maker::Parts && kind == 1 {
        words[1] = [0, 1, 226, 227, 622, 623, 624].get(turn).copied().unwrap_or_else(|| simple.below(625));
    }
    words
}

fn nothing(_: usize, _: &mut Simple) -> [u32; 4] {
    [0; 4]
}

/// A number of 32 bits, the edges first.
fn edge(turn: usize, simple: &mut Simple) -> u32 {
    [0, 1, u32::MAX, 0x8000_0000, 0x7FFF_FFFF, 5489].get(turn).copied().unwrap_or_else(|| simple.word())
}

/// A bound: edges, bounds that reject up to half of all words, and any others.
pub fn bound(turn: usize, simple: &mut Simple) -> u32 {
    let edges = [1, 2, 3, 6, 26, 0x8000_0001, 3_000_000_000, u32::MAX, 0x8000_0000, 0xC000_0001, 0x9000_0000, 65_536];
    edges.get(turn).copied().unwrap_or_else(|| simple.word().max(1) >> simple.below(20)).max(1)
}

/// Two ends, both included: one number, the full span, and spans of a bound.
fn ends(turn: usize, simple: &mut Simple) -> [u32; 4] {
    match turn {
        0 => [7, 7, 0, 0],
        1 => [0, u32::MAX, 0, 0],
        _ => {
            let last = bound(turn - 2, simple) - 1;
            let min = simple.word() % (u32::MAX - last).max(1);
            [min, min + last, 0, 0]
        }
    }
}

/// The same, read as signed: the least number is 0 there.
fn signed(turn: usize, simple: &mut Simple) -> [u32; 4] {
    let [min, max, ..] = ends(turn, simple);
    [min ^ 0x8000_0000, max ^ 0x8000_0000, 0, 0]
}

/// A list's length, 2 at least and below the limit.
fn length(turn: usize, simple: &mut Simple) -> u32 {
    [2, 3, 5, 16, 17, 255, 1_000].get(turn).copied().unwrap_or_else(|| 2 + simple.below(3_000) % 700)
}

/// A chance: both ends, the least and the greatest between them, and any others.
fn chance(turn: usize, simple: &mut Simple) -> f64 {
    let edges = [0.0, -0.0, 1.0, 0.5, f64::MIN_POSITIVE, 5e-324, 1.0 - f64::EPSILON / 2.0];
    edges.get(turn).copied().unwrap_or_else(|| (simple.long() >> 11) as f64 / (1u64 << 53) as f64)
}

/// An interval: next neighbours, subnormal, of both signs, as wide as may be, and any others that the port takes.
fn interval(turn: usize, simple: &mut Simple) -> (f64, f64) {
    let edges = [
        (0.0, 1.0),
        (-1.0, 1.0),
        (1.0, 1.0 + f64::EPSILON),
        (0.0, 5e-324),
        (-5e-324, 5e-324),
        (0.0, f64::MAX),
        (-f64::MAX / 2.0, f64::MAX / 2.0),
        (-1e-300, 1e300),
    ];
    edges.get(turn).copied().unwrap_or_else(|| loop {
        let (low, high) = (f64::from_bits(simple.long()), f64::from_bits(simple.long()));
        if low < high && (high - low).is_finite() {
            return (low, high);
        }
    })
}

/// Two floats as four words.
fn halves(first: f64, second: f64) -> [u32; 4] {
    let (first, second) = (first.to_bits(), second.to_bits());
    [first as u32, (first >> 32) as u32, second as u32, (second >> 32) as u32]
}
