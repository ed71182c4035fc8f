//! Lists within a budget: `choose`, `rand_slice` and `shuffle`, for every length up to 64 and the longest, and every window.

use super::draws::{value, Call, Case};
use crate::fence::FencedList;
use crate::tally::Tally;

/// The longest list that the port takes, as document 01 has it.
pub const LONGEST: usize = 65_536;

/// Entries beside a list.
pub const MARK: u32 = 0x5AFE_C0DE;

/// Every list up to this length is tried.
const SHORT: usize = 64;

/// Where a part of a list lies: the same address and length are the same part of the caller's list.
type Part = Option<*const [u32]>;

pub fn compare(tally: &mut Tally) {
    tally.row("no kind", "the longest list", |row| row.case(LONGEST, vrd::list_limit(), || "list_limit".into()));
    let lent = FencedList::new(numbered(), MARK);
    choose(tally, lent.checked());
    rand_slice(tally, lent.checked());
    shuffle(tally, lent.checked());
    tally.row("all", "the lists of choose and rand_slice, as they came", |row| {
        row.case(true, numbered().eq(lent.checked().iter().copied()), || "the list".into());
    });
}

fn choose(tally: &mut Tally, entries: &[u32]) {
    let call: Call<&[u32], Option<(usize, u32)>> = Call {
        name: "choose",
        cases: lengths().skip(1).map(|n| Case::new(&entries[..n], [n as u64])).collect(),
        refused: &|_| None,
        original: &|g, list| g.choose(list).map(|&entry| (place_of(entry), entry)),
        port: &|g, list, budget| {
            let (used, bottle) = value(g.choose(list, budget));
            (used, bottle.map(|bottle| (bottle.place, bottle.number)))
        },
    };
    call.compare(tally);
}

fn rand_slice(tally: &mut Tally, entries: &[u32]) {
    let call: Call<(&[u32], usize), Part> = Call {
        name: "rand_slice",
        cases: windows().map(|(n, window)| Case::new((&entries[..n], window), [(n - window + 1) as u64])).collect(),
        refused: &|_| None,
        original: &|g, &(list, window)| g.rand_slice(list, window).ok().map(std::ptr::from_ref),
        port: &|g, &(list, window), budget| {
            let (used, part) = value(g.rand_slice(list, window, budget));
            (used, part.map(std::ptr::from_ref))
        },
    };
    call.compare(tally);
}

fn shuffle(tally: &mut Tally, entries: &[u32]) {
    let call: Call<&[u32], Vec<u32>> = Call {
        name: "shuffle",
        cases: lengths().map(|n| Case::new(&entries[..n], (2..=n as u64).rev())).collect(),
        refused: &|list| list.to_vec(),
        original: &|g, list| {
            let mut ordered = list.to_vec();
            g.shuffle(&mut ordered);
            ordered
        },
        port: &|g, list, budget| {
            let mut ordered = FencedList::new(list.iter().copied(), MARK);
            let answer = g.shuffle(ordered.list(), budget);
            (answer.map(|drawn| drawn.used), ordered.checked().to_vec())
        },
    };
    call.compare(tally);
}

/// The lengths of lists: the short ones, and the longest two.
fn lengths() -> impl Iterator<Item = usize> {
    (0..=SHORT).chain([LONGEST - 1, LONGEST])
}

/// Entries that tell their places.
fn numbered() -> impl Iterator<Item = u32> {
    (0..LONGEST as u32).map(|i| i * 7 + 3)
}

fn place_of(entry: u32) -> usize {
    (entry as usize - 3) / 7
}

/// Lengths with windows: every window of the short lists, and the edges of the longest.
fn windows() -> impl Iterator<Item = (usize, usize)> {
    let short = (1..=SHORT).flat_map(|n| (1..=n).map(move |window| (n, window)));
    let long = [LONGEST - 1, LONGEST].into_iter().flat_map(|n| [1, 2, 3, n / 2, n - 2, n - 1, n].map(|w| (n, w)));
    short.chain(long)
}
