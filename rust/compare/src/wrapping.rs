//! The wrapping helpers against the Rust's own: products, rotations by every amount, and numbers of 128 bits. Each pairs the edges of its
//! width with one another.

use crate::seeds;
use crate::tally::Tally;

/// Numbers of each width that are paired with one another: the edges, each power of two, and some others.
const PAIRED: usize = 300;

const NAME: &str = "wrapping";

pub fn compare(tally: &mut Tally) {
    let (short, long, wide) = (&seeds::short()[..PAIRED], &seeds::long()[..PAIRED], &seeds::wide()[..PAIRED]);
    pairs(tally, "product modulo 2^32", short, u32::wrapping_mul, |a, b| port::wrapping_mul_u32(a, b));
    pairs(tally, "product modulo 2^64", long, u64::wrapping_mul, |a, b| port::wrapping_mul_u64(a, b));
    pairs(tally, "sum modulo 2^128", wide, u128::wrapping_add, |a, b| port::wrapping_add_wide(a.into(), b.into()).into());
    pairs(tally, "product modulo 2^128", wide, u128::wrapping_mul, |a, b| port::wrapping_mul_wide(a.into(), b.into()).into());
    rotations(tally, "rotations of 32 bits, left", short, u32::rotate_left, |x, k| port::wrapping_rotate_left_u32(x, k));
    rotations(tally, "rotations of 32 bits, right", short, u32::rotate_right, |x, k| port::wrapping_rotate_right_u32(x, k));
    rotations(tally, "rotations of 64 bits, left", long, u64::rotate_left, |x, k| port::wrapping_rotate_left_u64(x, k));
    rotations(tally, "rotations of 64 bits, right", long, u64::rotate_right, |x, k| port::wrapping_rotate_right_u64(x, k));
}

/// An operation on each pair of these numbers.
fn pairs<N: Copy + PartialEq + std::fmt::Debug>(
    tally: &mut Tally,
    call: &'static str,
    numbers: &[N],
    original: impl Fn(N, N) -> N,
    port: impl Fn(N, N) -> N,
) {
    tally.row(NAME, call, |row| {
        for &a in numbers {
            for &b in numbers {
                row.case(original(a, b), port(a, b), || format!("{a:?} and {b:?}"));
            }
        }
    });
}

/// Each number by every amount from 0 to beyond its width, which counts modulo the width, and by the largest.
fn rotations<N: Copy + PartialEq + std::fmt::Debug>(
    tally: &mut Tally,
    call: &'static str,
    numbers: &[N],
    original: impl Fn(N, u32) -> N,
    port: impl Fn(N, u32) -> N,
) {
    tally.row(NAME, call, |row| {
        for &x in numbers {
            for k in (0..=130).chain([u32::MAX]) {
                row.case(original(x, k), port(x, k), || format!("{x:?} by {k}"));
            }
        }
    });
}
