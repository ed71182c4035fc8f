//! `uniform`: intervals short and long, of numbers next to each other, too small to divide, as wide as can be, and those that are
//! refused. The numbers drawn are compared by their bits.

use super::{parts, port_of, starts, KINDS};
use crate::tally::{Row, Tally};
use crate::STEP_WORDS;
use simple::Simple;
use vrd::Refusal;

pub fn compare(tally: &mut Tally) {
    let edges = edges();
    for (kind, name) in KINDS.into_iter().enumerate() {
        tally.row(name, "uniform", |row| intervals(row, kind, &edges));
    }
}

/// Ends at an edge, each with each: zeros, subnormal and smallest normal numbers, about 1, ends that can be as far apart as the
/// largest number, infinities and NaN.
fn edges() -> Vec<(f64, f64)> {
    // The largest number less than -2^969 is rounded to the largest; less than -2^970 it overflows.
    let (fits, overflows) = (2f64.powi(969), 2f64.powi(970));
    let magnitudes = [
        0.0,
        5e-324,
        1e-323,
        1.5e-323,
        f64::MIN_POSITIVE.next_down(),
        f64::MIN_POSITIVE,
        f64::EPSILON / 2.0,
        1.0 - f64::EPSILON / 2.0,
        1.0,
        1.0 + f64::EPSILON,
        1.0 + 2.0 * f64::EPSILON,
        3.0,
        fits.next_down(),
        fits,
        fits.next_up(),
        overflows.next_down(),
        overflows,
        overflows.next_up(),
        f64::MAX / 2.0,
        (f64::MAX / 2.0).next_up(),
        f64::MAX.next_down(),
        f64::MAX,
        f64::INFINITY,
        f64::NAN,
    ];
    let ends: Vec<f64> = magnitudes.iter().flat_map(|&end| [end, -end]).collect();
    ends.iter().flat_map(|&low| ends.iter().map(move |&high| (low, high))).collect()
}

/// An interval at an edge; of any bits; of neighbours; of subnormal ends; of ends of about one size. All but the first in order.
fn interval(k: u64, edges: &[(f64, f64)], simple: &mut Simple) -> (f64, f64) {
    let any = |simple: &mut Simple| f64::from_bits(simple.long());
    let (one, other) = match k % 5 {
        0 => return edges[(k / 5) as usize % edges.len()],
        1 => (any(simple), any(simple)),
        2 => {
            let low = any(simple);
            (low, f64::from_bits(low.to_bits().wrapping_add(1 + simple.long() % 8)))
        }
        3 => (f64::from_bits(simple.long() >> 12), -f64::from_bits(simple.long() >> 12)),
        _ => {
            let low = any(simple);
            (low, low * (simple.long() as f64 / (1u64 << 62) as f64 - 2.0))
        }
    };
    if one < other {
        (one, other)
    } else {
        (other, one)
    }
}

fn intervals(row: &mut Row, kind: usize, edges: &[(f64, f64)]) {
    let starts = starts::all(kind);
    let share = STEP_WORDS.div_ceil(starts.len() as u64);
    let mut simple = Simple::new(17);
    let mut highest = 0;
    for mut original in starts {
        let mut port = port_of(&original);
        for k in 0..share {
            let (low, high) = interval(k, edges, &mut simple);
            let expected = match refusal(low, high) {
                Some(refusal) => Err(refusal),
                None => Ok(original.uniform(low, high).to_bits()),
            };
            highest += u64::from(expected == Ok(high.to_bits()));
            let found = port.uniform(low, high).map(f64::to_bits);
            let what = || format!("uniform({low:?}, {high:?})");
            row.case((expected, parts(&original)), (found, port.parts()), what);
        }
        row.drew(share);
    }
    row.case(true, highest > 0, || "a number that equals its upper end".into());
}

/// The table of refusals, in its order. There the original panics, or hands out an infinity.
fn refusal(low: f64, high: f64) -> Option<Refusal> {
    if !low.is_finite() || !high.is_finite() {
        return Some(Refusal::NotFinite);
    }
    if low >= high {
        return Some(Refusal::Order);
    }
    (high - low).is_infinite().then_some(Refusal::NotFinite)
}
