//! `bool`: chances at both ends and between, those next to the double that is drawn, and those that are refused with 3.

use super::{parts, port_of, starts, KINDS};
use crate::tally::{Row, Tally};
use crate::STEP_WORDS;
use simple::Simple;
use vrd::{Drawn, Refusal};

/// Chances at an edge, and some that are none.
const EDGES: [f64; 18] = [
    0.0,
    -0.0,
    5e-324,
    f64::MIN_POSITIVE,
    f64::EPSILON / 2.0,
    0.5,
    1.0 - f64::EPSILON / 2.0,
    1.0,
    1.0 + f64::EPSILON,
    2.0,
    f64::MAX,
    f64::INFINITY,
    -5e-324,
    -f64::MIN_POSITIVE,
    -1.0,
    f64::NEG_INFINITY,
    f64::NAN,
    -f64::NAN,
];

pub fn compare(tally: &mut Tally) {
    for (kind, name) in KINDS.into_iter().enumerate() {
        tally.row(name, "bool", |row| chances(row, kind));
    }
}

fn chances(row: &mut Row, kind: usize) {
    let starts = starts::all(kind);
    let share = STEP_WORDS.div_ceil(starts.len() as u64);
    let used = if kind == 0 || kind == 3 { 1 } else { 2 };
    let mut simple = Simple::new(3);
    for mut original in starts {
        let mut port = port_of(&original);
        for k in 0..share {
            let next = original.clone().double();
            let chance = match k % 8 {
                0 => EDGES[(k / 8) as usize % EDGES.len()],
                1 => next,
                2 => next.next_up(),
                3 => next.next_down(),
                _ => (simple.long() >> 11) as f64 / (1u64 << 53) as f64,
            };
            // The table of refusals: NaN, below 0 or above 1. There the original panics.
            let expected =
                if (0.0..=1.0).contains(&chance) { Ok(Drawn { value: original.bool(chance), used }) } else { Err(Refusal::Chance) };
            let found = port.bool(chance);
            row.case((expected, parts(&original)), (found, port.parts()), || format!("bool({chance:?})"));
        }
        row.drew(share);
    }
}
