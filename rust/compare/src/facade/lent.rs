//! A generator as the exports take it: state and table, each between guard words.

use super::parts;
use crate::fence::Fenced;
use port::{State, Table, Wide};
use vrd::Parts;
use vrd_original::Random as Original;

/// A table that no kind but 1 may touch.
pub const TABLE: Table = [0xDEAD_BEEF; 624];

/// The two arrays that a call is lent.
#[derive(Clone)]
pub struct Lent {
    pub state: Fenced<State>,
    pub table: Fenced<Table>,
}

impl Lent {
    pub fn new(state: State, table: Table) -> Self {
        Self { state: Fenced::new(state), table: Fenced::new(table) }
    }

    /// The arrays of a generator of the original. Entries of the state that its kind does not use hold a number.
    pub fn of(g: &Original, unused: u64) -> Self {
        let state = match parts(g) {
            Parts::Xoshiro256PlusPlus([s0, s1, s2, s3]) => [0, unused, s0, s1, s2, s3],
            Parts::MersenneTwister { table, mti } => return Self::new([1, mti.into(), unused, unused, unused, unused], *table),
            Parts::Pcg32 { state, inc } => [2, unused, state, inc, unused, unused],
            Parts::Pcg64 { state, inc } => {
                let (state, inc) = (Wide::from(state), Wide::from(inc));
                [3, unused, state.high, state.low, inc.high, inc.low]
            }
        };
        Self::new(state, TABLE)
    }

    /// Both arrays, the guard words looked at.
    pub fn arrays(&self) -> (&State, &Table) {
        (self.state.checked(), self.table.checked())
    }
}
