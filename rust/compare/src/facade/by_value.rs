//! The library's calls by value, `rand` and `bounded`, in a row, and the same draws over a lent generator: the words XORed, or the numbers
//! drawn and the words used added up, against the original.

use super::draws::words_between;
use super::lent::Lent;
use super::{rejecting, starts, KINDS};
use crate::tally::{Row, Tally};
use port::{State, Sums, Table, Word};
use simple::Simple;
use vrd_original::Random as Original;

/// Words of each loop and kind, and draws.
const WORDS: u64 = 1_000_000;
const DRAWS: u64 = 500_000;

/// The lengths of the first loops from each start; the others have up to `LONGEST` turns.
const FIRST: [u64; 7] = [0, 1, 2, 0, 623, 624, 625];
const LONGEST: u32 = 1_000;

/// Bounds that reject hardly any word, a third of them, and half of them; each with budgets that suffice, and that end some draws.
const BOUNDS: [u32; 6] = [1, 3, 40, 0x8000_0001, 3_000_000_000, u32::MAX];
const BUDGETS: [u32; 5] = [u32::MAX, 1_000, 3, 1, 0];

/// What stands in the entries of the state that a kind does not use.
const UNUSED: u64 = 99;

type Words = extern "C" fn(&mut State, &mut Table, u64) -> Word<u64>;
type Draws = extern "C" fn(&mut State, &mut Table, u32, u32, u64) -> Sums;

pub fn compare(tally: &mut Tally) {
    let words: (&str, Words) = ("rand by value, loop", port::bench_words_by_value);
    let draws: [(&str, Draws); 2] = [("bounded by value, loop", port::bench_draws_by_value), ("bounded lent, loop", port::bench_draws_in)];
    for (kind, name) in KINDS.into_iter().enumerate() {
        tally.row(name, words.0, |row| words_in_a_row(row, kind, words.1));
        for (call, port) in draws {
            tally.row(name, call, |row| draws_in_a_row(row, kind, port));
        }
    }
    tally.row("above 3", "the loops, refused with 10", |row| no_kind(row, words, &draws));
}

/// The lengths of loops that have so many turns together.
fn lengths(total: u64) -> impl Iterator<Item = u64> {
    let mut simple = Simple::new(total);
    let all = FIRST.into_iter().chain(std::iter::repeat_with(move || simple.below(LONGEST).into()));
    all.scan(total, |left, length| {
        let turns = (*left > 0).then_some(length.min(*left))?;
        *left -= turns;
        Some(turns)
    })
}

fn words_in_a_row(row: &mut Row, kind: usize, port: Words) {
    let starts = starts::all(kind);
    let share = WORDS.div_ceil(starts.len() as u64);
    for mut original in starts {
        let mut lent = Lent::of(&original, UNUSED);
        for n in lengths(share) {
            let xor = (0..n).fold(0, |xor, _| xor ^ u64::from(original.rand()));
            let found = port(&mut lent.state, &mut lent.table, n);
            let end = Lent::of(&original, UNUSED);
            row.case((0, xor, end.arrays()), (found.refusal, found.value, lent.arrays()), || format!("{n} words"));
            row.drew(n);
        }
    }
}

/// Sum and words used of n draws by the original, the ones that take more than the budget left out: from there on every draw does.
fn summed(original: &mut Original, bound: u32, budget: u32, n: u64) -> (u64, u64) {
    let (mut sum, mut used) = (0, 0);
    for _ in 0..n {
        let mut next = original.clone();
        let value = next.bounded(bound);
        let took = words_between(original, &next).max(1);
        if took > budget {
            break;
        }
        *original = next;
        sum += u64::from(value);
        used += u64::from(took);
    }
    (sum, used)
}

fn draws_in_a_row(row: &mut Row, kind: usize, port: Draws) {
    let mut starts = starts::all(kind);
    starts.retain(|start| !starts::stands_still(start));
    starts.extend(rejecting::starts(kind));
    let share = DRAWS.div_ceil((starts.len() * BOUNDS.len() * BUDGETS.len()) as u64);
    for start in starts {
        for (bound, budget) in BOUNDS.into_iter().flat_map(|bound| BUDGETS.map(|budget| (bound, budget))) {
            let (mut original, mut lent) = (start.clone(), Lent::of(&start, UNUSED));
            for n in lengths(share) {
                let (sum, used) = summed(&mut original, bound, budget, n);
                let found = port(&mut lent.state, &mut lent.table, bound, budget, n);
                let end = Lent::of(&original, UNUSED);
                let what = || format!("{n} draws below {bound} with budget {budget}");
                row.case((0, sum, used, end.arrays()), (found.refusal, found.sum, found.used, lent.arrays()), what);
                row.drew(used);
                if used > n {
                    row.rejected();
                }
            }
        }
    }
    row.must_reject();
}

/// A kind that there is not: nothing is drawn, and nothing changes.
fn no_kind(row: &mut Row, words: (&str, Words), draws: &[(&str, Draws)]) {
    for kind in [4, 1 << 32, u64::MAX] {
        let before = Lent::new([kind, 1, 2, 3, 4, 5], [7; 624]);
        let (name, port) = words;
        let mut lent = before.clone();
        let found = port(&mut lent.state, &mut lent.table, 5);
        row.case((10, 0, before.arrays()), (found.refusal, found.value, lent.arrays()), || format!("{name} of kind {kind}"));
        for (name, port) in draws {
            let mut lent = before.clone();
            let found = port(&mut lent.state, &mut lent.table, 40, 100, 5);
            let what = || format!("{name} of kind {kind}");
            row.case((10, 0, 0, before.arrays()), (found.refusal, found.sum, found.used, lent.arrays()), what);
        }
    }
}
