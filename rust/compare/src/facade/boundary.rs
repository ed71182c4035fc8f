//! The exports themselves, over two arrays between guard words: kinds that there are not are refused with 10 before anything else is looked
//! at, a refused call changes nothing, and what a kind does not use stays. None of it can be asked through the package vrd.

use super::exported::{Answer, Export, EXPORTS};
use super::lent::{Lent, TABLE};
use super::{starts, KINDS};
use crate::tally::{Row, Tally};
use port::Wide;
use vrd_original::pcg::{Pcg32, Pcg64};
use vrd_original::rand_core::SeedableRng;
use vrd_original::{MersenneTwister, Random as Original, RngBackend};

/// What stands in the entries of the state that a kind does not use.
const UNUSED: u64 = 77;

/// Calls of each export from each start.
const CALLS: u32 = 20;

/// Kinds that there are not, those whose low half is a kind among them.
const NO_KINDS: [u64; 11] = [4, 5, 6, 255, 256, 1 << 31, u32::MAX as u64, 1 << 32, (1 << 32) + 1, 1 << 63, u64::MAX];

pub fn compare(tally: &mut Tally) {
    tally.row("above 3", "the exports, refused with 10", no_kind);
    for (kind, name) in KINDS.into_iter().enumerate() {
        tally.row(name, "the exports, both arrays afterwards", |row| answered(row, kind));
        tally.row(name, "the exports, refused: both arrays as they came", |row| refused(row, kind));
        tally.row(name, "same, unused parts different", |row| unused_parts(row, kind));
    }
    tally.row("all", "the makers, both arrays afterwards", makers);
    tally.row("all", "make, refused: both arrays as they came", refused_makers);
}

/// One call of an export: its answer and the arrays afterwards must be these.
fn call(row: &mut Row, export: &Export, lent: &mut Lent, n: u32, expected: (Answer, &Lent)) {
    let answer = (export.port)(&mut lent.state, &mut lent.table, n);
    row.case((expected.0, expected.1.arrays()), (answer, lent.arrays()), || format!("{} with {n}", export.name));
}

/// Everything is as it came, whatever the other arguments are.
fn no_kind(row: &mut Row) {
    for kind in NO_KINDS {
        let before = Lent::new([kind, 77, 11, 22, 33, 44], TABLE);
        for export in &EXPORTS {
            for n in [0, 100] {
                call(row, export, &mut before.clone(), n, (Answer::refused(10), &before));
            }
        }
        for known in 0..4 {
            let other = Lent::new([known, 77, 11, 22, 33, 44], TABLE);
            for (one, two) in [(&before, &other), (&other, &before), (&before, &before)] {
                let same = port::vrd_same_in(&one.state, &one.table, &two.state, &two.table);
                row.case((10, false), (same.refusal, same.equal), || format!("vrd_same_in of kind {kind} and {known}"));
            }
        }
    }
}

/// Good arguments, several times in a row: the answer and the generator after it are the original's, and nothing that is unused has moved.
fn answered(row: &mut Row, kind: usize) {
    for start in starts::all(kind).into_iter().filter(|start| !starts::stands_still(start)) {
        for export in &EXPORTS {
            let (mut original, mut lent) = (start.clone(), Lent::of(&start, UNUSED));
            for _ in 0..CALLS {
                let (refusal, value) = (export.original)(&mut original);
                let answer = (export.port)(&mut lent.state, &mut lent.table, 100);
                let end = Lent::of(&original, UNUSED);
                let found = (answer.refusal, answer.value, lent.arrays());
                row.case((refusal, value, end.arrays()), found, || export.name.into());
            }
        }
    }
}

/// Bad arguments: a position above 32 bits is left too, of which only the low half counts.
fn refused(row: &mut Row, kind: usize) {
    for start in starts::all(kind) {
        let mut before = Lent::of(&start, UNUSED);
        before.state[1] |= 5 << 32;
        for export in EXPORTS.iter().filter(|export| export.refused != 0) {
            call(row, export, &mut before.clone(), 0, (Answer::refused(export.refused), &before));
        }
    }
}

/// Two generators that differ in parts that their kind does not use are equal.
fn unused_parts(row: &mut Row, kind: usize) {
    for start in starts::all(kind) {
        let (one, mut other) = (Lent::of(&start, 1), Lent::of(&start, 2));
        if kind != 1 {
            *other.table = [2; 624];
        }
        let same = port::vrd_same_in(&one.state, &one.table, &other.state, &other.table);
        row.case((0, true), (same.refusal, same.equal), || format!("{start:?}"));
    }
}

/// Every maker over arrays that held something else: unused entries of the state are 0, and only kind 1 writes the table.
fn makers(row: &mut Row) {
    let mut made = |name: &str, original: Original, maker: &dyn Fn(&mut Lent)| {
        let mut lent = Lent::new([u64::MAX; 6], TABLE);
        maker(&mut lent);
        row.case(Lent::of(&original, 0).arrays(), lent.arrays(), || name.into());
    };
    let (wide, stream) = (Wide { high: 1, low: 2 }, Wide { high: 3, low: 4 });
    let twister = Original::new_mersenne_twister_with_seed;
    made("xoshiro_with_seed", Original::from_u64_seed(5), &|g| port::vrd_xoshiro_with_seed_in(&mut g.state, 5));
    made("mersenne_twister_with_seed", twister(5), &|g| {
        port::vrd_mersenne_twister_with_seed_in(&mut g.state, &mut g.table, 5);
    });
    made("pcg32_with_seed", Original::new_pcg32_with_seed(5), &|g| port::vrd_pcg32_with_seed_in(&mut g.state, 5));
    made("pcg64_with_seed", Original::new_pcg64_with_seed(wide.into()), &|g| port::vrd_pcg64_with_seed_in(&mut g.state, wide));
    let original = starts::pcg32(Pcg32::from_seed_stream(5, 6));
    made("pcg32_with_stream", original, &|g| port::vrd_pcg32_with_stream_in(&mut g.state, 5, 6));
    let original = starts::pcg64(Pcg64::from_seed_stream(wide.into(), stream.into()));
    made("pcg64_with_stream", original, &|g| port::vrd_pcg64_with_stream_in(&mut g.state, wide, stream));
    let of_bytes = [
        Original::from_seed([7; 32]),
        Original::from_backend(RngBackend::MersenneTwister(Box::new(MersenneTwister::from_seed([7; 32])))),
        starts::pcg32(Pcg32::from_seed([7; 16])),
        starts::pcg64(Pcg64::from_seed([7; 32])),
    ];
    for (kind, original) in (0..).zip(of_bytes) {
        let length = if kind == 2 { 16 } else { 32 };
        made("make", original, &|g| assert_eq!(port::make(&mut g.state, &mut g.table, kind, &[7; 32][..length]), 0));
    }
}

/// 10 for the kind, then 11 for the length; whatever the arrays held, they hold.
fn refused_makers(row: &mut Row) {
    for kind in (0..6).chain([u32::MAX]) {
        for length in 0..=64 {
            let expected = match (kind, length) {
                (4.., _) => 10,
                (2, 16) | (0 | 1 | 3, 32) => continue,
                _ => 11,
            };
            let before = Lent::new([u64::MAX; 6], TABLE);
            let mut lent = before.clone();
            let refusal = port::make(&mut lent.state, &mut lent.table, kind, &vec![7; length]);
            row.case((expected, before.arrays()), (refusal, lent.arrays()), || format!("make of kind {kind}, {length} bytes"));
        }
    }
}
