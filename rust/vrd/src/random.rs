//! The generator: one of four kinds, equal or not to another, and its parts read out.

use crate::exports::{self, State, Table};
use core::fmt;

/// A generator of one of four kinds; see [`Parts`] for them.
///
/// Made by [`Random::from_u64_seed`], [`Random::new_mersenne_twister_with_seed`], [`Random::new_pcg32_with_seed`],
/// [`Random::new_pcg64_with_seed`] and the other makers. Two generators are equal if their kinds and that kind's own parts are.
#[derive(Clone)]
pub struct Random {
    /// The kind, which is never above 3, the twister's position, and the kind's small words; each call lends it, and the table.
    pub(crate) state: State,
    /// The twister's table; zeros on the other kinds.
    pub(crate) table: Table,
}

/// The kind of a generator and its parts, as [`Random::parts`] reads them and [`Random::from_parts`] takes them.
#[derive(Clone, Copy, Debug, Eq, PartialEq)]
pub enum Parts<'a> {
    /// Kind 0: four words.
    Xoshiro256PlusPlus([u64; 4]),
    /// Kind 1: the table, and the position of the next word. At 624 and above the next word twists first.
    MersenneTwister {
        /// The table of 624 words.
        table: &'a [u32; 624],
        /// The position.
        mti: u32,
    },
    /// Kind 2.
    Pcg32 {
        /// The state.
        state: u64,
        /// The increment in use, which is not a stream.
        inc: u64,
    },
    /// Kind 3.
    Pcg64 {
        /// The state.
        state: u128,
        /// The increment in use, which is not a stream.
        inc: u128,
    },
}

impl Random {
    /// The number of the kind: 0 Xoshiro256++, 1 Mersenne Twister, 2 Pcg32, 3 Pcg64.
    pub fn kind(&self) -> u32 {
        self.state[0] as u32
    }

    /// The kind and its parts. [`Random::from_parts`] makes the same generator of them.
    ///
    /// ```
    /// use vrd::{Parts, Random};
    ///
    /// let mut unit = Random::new_pcg32_with_stream(42, 54);
    /// unit.rand();
    /// let Parts::Pcg32 { inc, .. } = unit.parts() else { unreachable!() };
    /// assert_eq!(inc, 2 * 54 + 1);
    /// assert!(Random::from_parts(unit.parts()) == unit);
    /// ```
    pub fn parts(&self) -> Parts<'_> {
        let [kind, mti, w0, w1, w2, w3] = self.state;
        match kind {
            0 => Parts::Xoshiro256PlusPlus([w0, w1, w2, w3]),
            1 => Parts::MersenneTwister { table: &self.table, mti: mti as u32 },
            2 => Parts::Pcg32 { state: w0, inc: w1 },
            _ => Parts::Pcg64 { state: exports::Wide { high: w0, low: w1 }.into(), inc: exports::Wide { high: w2, low: w3 }.into() },
        }
    }
}

impl PartialEq for Random {
    fn eq(&self, other: &Self) -> bool {
        exports::vrd_same_in(&self.state, &self.table, &other.state, &other.table).equal
    }
}

impl Eq for Random {}

impl fmt::Debug for Random {
    fn fmt(&self, f: &mut fmt::Formatter<'_>) -> fmt::Result {
        f.debug_tuple("Random").field(&self.parts()).finish()
    }
}
