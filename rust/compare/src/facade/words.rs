//! Words as they come, floats among them: `rand`, `u64`, `i64`, `pseudo`, `float` and `double`, from every start of every kind. A float
//! is compared by its bits.

use super::{parts, port_of, starts, Port, KINDS};
use crate::tally::{Row, Tally};
use crate::STEP_WORDS;
use vrd_original::Random as Original;

/// A call on both sides, its answer as 64 bits.
struct Call {
    name: &'static str,
    original: fn(&mut Original) -> u64,
    port: fn(&mut Port) -> u64,
}

const CALLS: [Call; 6] = [
    Call { name: "rand", original: |g| g.rand().into(), port: |g| g.rand().into() },
    Call { name: "u64", original: |g| g.u64(), port: |g| g.u64() },
    Call { name: "i64", original: |g| g.i64() as u64, port: |g| g.i64() as u64 },
    Call { name: "pseudo", original: |g| g.pseudo().into(), port: |g| g.pseudo().into() },
    Call { name: "float", original: |g| g.float().to_bits().into(), port: |g| g.float().to_bits().into() },
    Call { name: "double", original: |g| g.double().to_bits(), port: |g| g.double().to_bits() },
];

pub fn compare(tally: &mut Tally) {
    for call in &CALLS {
        for (kind, name) in KINDS.into_iter().enumerate() {
            tally.row(name, call.name, |row| one_by_one(row, kind, call));
        }
    }
}

/// So many calls from all starts together: from each past several twists of the twister.
fn one_by_one(row: &mut Row, kind: usize, call: &Call) {
    let starts = starts::all(kind);
    let share = STEP_WORDS.div_ceil(starts.len() as u64);
    for (place, mut original) in starts.into_iter().enumerate() {
        let mut port = port_of(&original);
        for k in 0..share {
            let word = (call.original)(&mut original);
            let found = (call.port)(&mut port);
            row.case((word, parts(&original)), (found, port.parts()), || format!("call {k} of start {place}"));
        }
        row.drew(share);
    }
}
