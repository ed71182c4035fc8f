//! The facade on both sides, the port's through the package vrd: how a generator of the original reads as the port's, and the
//! comparisons over all kinds. What is lent stands between guard words.

mod boundary;
mod by_value;
mod chances;
mod draws;
mod exported;
mod filling;
mod intervals;
mod lent;
mod lists;
mod making;
mod numbers;
mod refused;
mod rejecting;
mod starts;
mod state;
mod words;

use crate::fence::Fenced;
use crate::tally::Tally;
use vrd::Parts;
use vrd_original::{Random as Original, RngBackend};

/// The names of the kinds 0 to 3.
const KINDS: [&str; 4] = ["Xoshiro256PlusPlus", "MersenneTwister", "Pcg32", "Pcg64"];

pub fn compare(tally: &mut Tally) {
    making::compare(tally);
    words::compare(tally);
    chances::compare(tally);
    intervals::compare(tally);
    state::compare(tally);
    filling::compare(tally);
    numbers::compare(tally);
    lists::compare(tally);
    refused::compare(tally);
    boundary::compare(tally);
    by_value::compare(tally);
}

/// The parts of the original's generator, as the port reads its own.
fn parts(g: &Original) -> Parts<'_> {
    match g.backend() {
        RngBackend::Xoshiro256PlusPlus(x) => Parts::Xoshiro256PlusPlus(x.parts()),
        RngBackend::MersenneTwister(t) => {
            let mti = u32::try_from(t.mti).expect("positions are set to 32-bit numbers only");
            Parts::MersenneTwister { table: &t.mt, mti }
        }
        RngBackend::Pcg32(p) => {
            let (state, inc) = p.parts();
            Parts::Pcg32 { state, inc }
        }
        RngBackend::Pcg64(p) => {
            let (state, inc) = p.parts();
            Parts::Pcg64 { state, inc }
        }
        _ => unreachable!("the original is built with four kinds"),
    }
}

/// The port's generator between guard words.
type Port = Fenced<vrd::Random>;

impl Port {
    /// Its parts, the guard words looked at.
    fn parts(&self) -> Parts<'_> {
        self.checked().parts()
    }
}

/// The port's generator with the parts of the original's.
fn port_of(g: &Original) -> Port {
    Fenced::new(vrd::Random::from_parts(parts(g)))
}
