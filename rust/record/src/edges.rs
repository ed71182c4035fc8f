//! Files of their own for what a later version may answer otherwise: refusals of the budget, positions above 624, the edges of a list's
//! length, and seeds that fold to 0. And the two long runs, as digests.

use crate::call::Call;
use crate::row::{row, Allowance, Row};
use crate::samples::bound;
use crate::start::{Maker, Start};
use simple::Simple;

pub fn files() -> Vec<(String, Vec<Row>)> {
    [
        ("out_of_budget", out_of_budget()),
        ("above_624", above_624()),
        ("list_edges", list_edges()),
        ("folded_to_zero", folded_to_zero()),
        ("long_runs", long_runs()),
    ]
    .map(|(name, rows)| (name.to_string(), rows))
    .into()
}

/// Every call with a budget, with one word less than it takes.
fn out_of_budget() -> Vec<Row> {
    let mut simple = Simple::new(8);
    let mut rows = Vec::new();
    for kind in 0..4 {
        for turn in 0..6 {
            let bound = bound(turn + 5, &mut simple);
            let calls = [
                (Call::Bounded, [bound, 0, 0, 0]),
                (Call::RandomRange, [0, bound, 0, 0]),
                (Call::Int, [0x8000_0000, (bound - 1) ^ 0x8000_0000, 0, 0]),
                (Call::Range, [0, 100, 0, 0]),
                (Call::Uint, [0, u32::MAX, 0, 0]),
                (Call::Char, [0; 4]),
                (Call::Choose, [bound % 1_000 + 2, 0, 0, 0]),
                (Call::Shuffle, [bound % 1_000 + 2, 0, 0, 0]),
                (Call::RandSlice, [bound % 1_000 + 2, 2, 0, 0]),
            ];
            for (call, arguments) in calls {
                let start = Start::any(kind, turn, &mut simple);
                rows.push(row(call, start, arguments, Allowance::OneLess));
            }
        }
    }
    rows
}

/// The twister at positions above 624 that are set by hand, and `set_mti` to such positions, which stores 624.
fn above_624() -> Vec<Row> {
    let mut rows = Vec::new();
    for position in [625, 626, 1_000, 65_536, 0x8000_0000, u32::MAX] {
        let calls = [
            (Call::Made, [0; 4]),
            (Call::Rand, [0; 4]),
            (Call::U64, [0; 4]),
            (Call::Mti, [0; 4]),
            (Call::Twist, [0; 4]),
            (Call::FillBytes, [11, 0, 0, 0]),
            (Call::Bounded, [0x8000_0001, 0, 0, 0]),
            (Call::Shuffle, [700, 0, 0, 0]),
        ];
        for (call, arguments) in calls {
            rows.push(row(call, Start::at(42, position), arguments, Allowance::Exactly));
        }
        rows.push(row(Call::SetMti, Start::at(42, 5), [position, 0, 0, 0], Allowance::Exactly));
        rows.push(row(Call::Bounded, Start::at(42, position), [0x8000_0001, 0, 0, 0], Allowance::OneLess));
    }
    rows
}

/// Lists of 0, 1 and 65,536 entries.
fn list_edges() -> Vec<Row> {
    let mut rows = Vec::new();
    for kind in 0..4 {
        let start = Start { skipped: 3, ..Start::seed(kind, 2_024) };
        for length in [0, 1, 65_536] {
            for call in [Call::Choose, Call::Shuffle] {
                rows.push(row(call, start, [length, 0, 0, 0], Allowance::Exactly));
            }
            for window in [0, 1, length / 2, length] {
                if length == 0 || 0 < window {
                    rows.push(row(Call::RandSlice, start, [length, window, 0, 0], Allowance::Most));
                }
            }
        }
        rows.push(row(Call::Shuffle, start, [65_536, 0, 0, 0], Allowance::OneLess));
    }
    rows
}

/// Constant bytes fold to 0 on kinds 0 and 1, and so do the seed number 0 and the number that replaces it on kind 0.
fn folded_to_zero() -> Vec<Row> {
    let mut starts = vec![Start::seed(0, 0), Start::seed(0, 0xBAD1_DEAA_5BD1_CAFE), Start::seed(1, 0)];
    for kind in 0..2 {
        for byte in [0, 1, 7, 128, 255] {
            starts.push(Start::new(kind, Maker::Bytes, [u32::from_le_bytes([byte; 4]); 8]));
        }
    }
    let seeded = [Call::Made, Call::U64].map(|call| starts.iter().map(move |&start| (call, start)));
    let anew = (0..4).map(|kind| (Call::Seed, Start::seed(kind, 9)));
    let all = seeded.into_iter().flatten().chain(anew);
    all.map(|(call, start)| row(call, start, [0; 4], Allowance::Exactly)).collect()
}

/// 10^6 words and 10^5 draws of each kind.
fn long_runs() -> Vec<Row> {
    let runs = [(Call::Words, 1_000_000), (Call::Draws, 100_000)];
    let of_kind = |kind| runs.map(|(call, count)| row(call, Start::seed(kind, 42), [count, 0, 0, 0], Allowance::Exactly));
    (0..4).flat_map(of_kind).collect()
}
