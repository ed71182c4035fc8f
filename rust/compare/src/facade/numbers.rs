//! Numbers drawn within a budget: `bounded`, `random_range`, `int`, `range`, `uint` and `char`, at every edge of their arguments.

use super::draws::{value, Call, Case, OriginalCall, PortCall};
use crate::tally::Tally;
use simple::Simple;

pub fn compare(tally: &mut Tally) {
    let call: Call<u32, Option<u32>> = Call {
        name: "bounded",
        cases: bounds().map(|n| Case::new(n, [n.into()])).collect(),
        refused: &|_| None,
        original: &|g, &n| Some(g.bounded(n)),
        port: &|g, &n, budget| value(g.bounded(n, budget)),
    };
    call.compare(tally);
    let call: Call<(u32, u32), Option<u32>> = Call {
        name: "random_range",
        cases: word_pairs().map(|(min, max)| Case::new((min, max), [u64::from(max - min)])).collect(),
        refused: &|_| None,
        original: &|g, &(min, max)| Some(g.random_range(min, max)),
        port: &|g, &(min, max), budget| value(g.random_range(min, max, budget)),
    };
    call.compare(tally);
    let call: Call<(u32, u32), Option<u32>> = Call {
        name: "uint",
        cases: word_pairs().chain(equal_and_all()).map(|(min, max)| span(min, max)).collect(),
        refused: &|_| None,
        original: &|g, &(min, max)| Some(g.uint(min, max)),
        port: &|g, &(min, max), budget| value(g.uint(min, max, budget)),
    };
    call.compare(tally);
    signed(tally, "int", &|g, &(min, max)| Some(g.int(min, max)), &|g, &(min, max), n| value(g.int(min, max, n)));
    signed(tally, "range", &|g, &(min, max)| Some(g.range(min, max)), &|g, &(min, max), n| value(g.range(min, max, n)));
    let call: Call<(), Option<char>> = Call {
        name: "char",
        cases: vec![Case::new((), [26])],
        refused: &|_| None,
        original: &|g, _| Some(g.char()),
        port: &|g, _, budget| value(g.char(budget)),
    };
    call.compare(tally);
}

/// `int` under either of its names.
fn signed(tally: &mut Tally, name: &'static str, original: OriginalCall<(i32, i32), Option<i32>>, port: PortCall<(i32, i32), Option<i32>>) {
    let cases = word_pairs().chain(equal_and_all()).map(|(min, max)| {
        // The same distances, moved so that they begin at the least number; and about 0.
        let moved = |n: u32| n.wrapping_add(1 << 31) as i32;
        span(moved(min), moved(max))
    });
    let about_zero = bounds().map(|n| span(-((n / 2) as i32), (n / 2) as i32));
    let call = Call { name, cases: cases.chain(about_zero).collect(), refused: &|_| None, original, port };
    call.compare(tally);
}

/// Ends that are both included: no draw where they are equal.
fn span<N: Copy + Into<i64>>(min: N, max: N) -> Case<(N, N)> {
    let values = max.into() - min.into() + 1;
    Case::new((min, max), (values > 1).then_some(values as u64))
}

/// The edges of a bound: 1, 2, 3, every power of two and its neighbours, the largest; some that reject about half of all words or a
/// third; and some between.
fn bounds() -> impl Iterator<Item = u32> {
    let edges = [1, 2, 3, u32::MAX - 1, u32::MAX, 6, 10, 26, 40, 0xAAAA_AAAB, 3_000_000_000];
    let powers = (2..32).flat_map(|k| [(1 << k) - 1, 1 << k, (1 << k) + 1]);
    let mut simple = Simple::new(99);
    let others = (0..40).map(move |_| (simple.long() as u32).max(1));
    edges.into_iter().chain(powers).chain(others)
}

/// Pairs of numbers that far apart: at the least number, at the largest, and between.
fn word_pairs() -> impl Iterator<Item = (u32, u32)> {
    let pairs = |n: u32| [(0, n), (u32::MAX - n, u32::MAX), (n / 2, n)];
    bounds().flat_map(pairs).filter(|(min, max)| min < max)
}

/// Ends that are equal, and the whole span.
fn equal_and_all() -> impl Iterator<Item = (u32, u32)> {
    let equal = [0, 1, 5, (1 << 31) - 1, 1 << 31, u32::MAX - 1, u32::MAX];
    equal.into_iter().map(|n| (n, n)).chain([(0, u32::MAX)])
}
