//! The state: `seed` (after custom streams too), `split`, `mti`, `set_mti`, `twist` and equality.

use super::{parts, port_of, starts, Port, KINDS};
use crate::fence::Fenced;
use crate::seeds;
use crate::tally::{Row, Tally};
use vrd::{Parts, Random, Refusal};
use vrd_original::Random as Original;

/// The ordered departure: the port stores at most this.
const HIGHEST_STORED: u32 = 624;

/// The cases of one call on one kind.
type Cases = fn(&mut Row, usize);

pub fn compare(tally: &mut Tally) {
    let calls: [(&str, Cases); 5] = [
        ("seed", seed),
        ("split", split),
        ("mti, set_mti (at most 624), words after", position),
        ("twist", twist),
        ("== (same)", equality),
    ];
    for (call, cases) in calls {
        for (kind, name) in KINDS.into_iter().enumerate() {
            tally.row(name, call, |row| cases(row, kind));
        }
    }
}

fn same_parts(row: &mut Row, original: &Original, port: &Port, what: &str) {
    row.case(parts(original), port.parts(), || format!("the generator after {what}"));
}

/// The next words on both sides, and the parts after them.
fn same_words(row: &mut Row, original: &mut Original, port: &mut Port, words: u64, what: &str) {
    for k in 0..words {
        row.case(original.u64(), port.u64(), || format!("word {k} after {what}"));
    }
    same_parts(row, original, port, what);
    row.drew(words);
}

fn seed(row: &mut Row, kind: usize) {
    let seeds: Vec<u32> = seeds::short().into_iter().step_by(10).collect();
    for mut original in starts::all(kind) {
        let mut port = port_of(&original);
        for &seed in &seeds {
            original.seed(seed);
            port.seed(seed);
            same_parts(row, &original, &port, "seed");
            same_words(row, &mut original, &mut port, 5, "seed");
        }
    }
}

/// Child and parent, their words, and children of the parent; the other kinds have none.
fn split(row: &mut Row, kind: usize) {
    for mut original in starts::all(kind) {
        let mut port = port_of(&original);
        for times in 1..=3 {
            match (original.split(), port.split()) {
                (Some(mut child), Ok(other)) => {
                    let mut other = Fenced::new(other);
                    same_parts(row, &child, &other, "split, of the child");
                    same_words(row, &mut child, &mut other, 100, "split, of the child");
                }
                (child, other) => {
                    let refused = child.is_none().then_some(Refusal::NoSplit);
                    row.case(refused, other.err(), || format!("the child of split {times}"));
                }
            }
            same_parts(row, &original, &port, "split, of the parent");
            same_words(row, &mut original, &mut port, 100, "split, of the parent");
        }
    }
}

/// The position read, and set: at most 624 is stored, and the words after it are the original's.
fn position(row: &mut Row, kind: usize) {
    for start in starts::all(kind) {
        for value in starts::POSITIONS {
            let (mut original, mut port) = (start.clone(), port_of(&start));
            row.case(original.mti(), port.mti() as usize, || "mti".into());
            original.set_mti(value as usize);
            port.set_mti(value);
            let stored = original.mti().min(HIGHEST_STORED as usize);
            row.case(stored, port.mti() as usize, || format!("set_mti({value})"));
            same_words(row, &mut original, &mut port, 50, "set_mti");
        }
    }
}

fn twist(row: &mut Row, kind: usize) {
    for mut original in starts::all(kind) {
        let mut port = port_of(&original);
        for _ in 1..=3 {
            original.twist();
            port.twist();
            same_parts(row, &original, &port, "twist");
            same_words(row, &mut original, &mut port, 3, "twist");
        }
    }
}

/// Each start of the kind against each start of every kind, and against itself with one bit changed.
fn equality(row: &mut Row, kind: usize) {
    let others: Vec<Original> = (0..4).flat_map(starts::all).collect();
    for one in starts::all(kind) {
        let left = port_of(&one);
        for other in &others {
            let what = || format!("{one:?} == {other:?}");
            row.case(one == *other, *left == *port_of(other), what);
        }
        for bit in 0..256 {
            row.case(false, *left == changed(left.parts(), bit), || format!("bit {bit} changed"));
        }
    }
}

/// A generator that differs in one bit: of the table every entry has its turn, and then the position.
fn changed(parts: Parts<'_>, bit: usize) -> Random {
    let changed = match parts {
        Parts::Xoshiro256PlusPlus(mut words) => {
            words[bit / 64] ^= 1 << (bit % 64);
            Parts::Xoshiro256PlusPlus(words)
        }
        Parts::MersenneTwister { table, mti } if bit < 32 => Parts::MersenneTwister { table, mti: mti ^ (1 << bit) },
        Parts::MersenneTwister { table, mti } => {
            let mut table = *table;
            table[(bit * 39 + 623) % 624] ^= 1 << (bit % 32);
            return Random::from_parts(Parts::MersenneTwister { table: &table, mti });
        }
        Parts::Pcg32 { state, inc } => match (bit / 64) % 2 {
            0 => Parts::Pcg32 { state: state ^ (1 << (bit % 64)), inc },
            _ => Parts::Pcg32 { state, inc: inc ^ (1 << (bit % 64)) },
        },
        Parts::Pcg64 { state, inc } => match bit / 128 {
            0 => Parts::Pcg64 { state: state ^ (1 << (bit % 128)), inc },
            _ => Parts::Pcg64 { state, inc: inc ^ (1 << (bit % 128)) },
        },
    };
    Random::from_parts(changed)
}
