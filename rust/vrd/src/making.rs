//! Makers: from seeds, seeds and streams, bytes, and parts set by hand.

use crate::exports::{self, State, Table};
use crate::{Parts, Random, Refusal};

/// # Makers
///
/// A kind's own makers refuse nothing; [`Random::make`] takes any kind number and any bytes.
///
/// ```
/// use vrd::{Random, Refusal};
///
/// // The published words of Pcg32 with seed 42 and stream 54.
/// let mut unit = Random::new_pcg32_with_stream(42, 54);
/// assert_eq!([unit.rand(), unit.rand(), unit.rand()], [0xa15c02b7, 0x7b47f409, 0xba1d3330]);
///
/// // Bytes of every kind: 32, 32, 16 and 32 of them.
/// assert!(Random::make(0, &[7; 32])? == Random::from_seed([7; 32]));
/// assert_eq!(Random::make(2, &[7; 32]), Err(Refusal::SeedLength));
/// assert_eq!(Random::make(4, &[7; 32]), Err(Refusal::Kind));
/// # Ok::<(), Refusal>(())
/// ```
impl Random {
    /// Xoshiro256++ from a seed number. Seed 0 is replaced by a constant, as in the original.
    pub fn from_u64_seed(seed: u64) -> Self {
        Self::made(|state, _| exports::vrd_xoshiro_with_seed_in(state, seed))
    }

    /// Xoshiro256++ from 32 bytes, whose four little-endian words are XORed to a seed number.
    pub fn from_seed(seed: [u8; 32]) -> Self {
        Self::made(|state, table| {
            exports::make(state, table, 0, &seed);
        })
    }

    /// The Mersenne Twister from a seed number.
    pub fn new_mersenne_twister_with_seed(seed: u32) -> Self {
        Self::made(|state, table| exports::vrd_mersenne_twister_with_seed_in(state, table, seed))
    }

    /// Pcg32 from a seed number, on the original's default stream.
    pub fn new_pcg32_with_seed(seed: u64) -> Self {
        Self::made(|state, _| exports::vrd_pcg32_with_seed_in(state, seed))
    }

    /// Pcg64 from a seed number, on the original's default stream.
    pub fn new_pcg64_with_seed(seed: u128) -> Self {
        Self::made(|state, _| exports::vrd_pcg64_with_seed_in(state, seed.into()))
    }

    /// Pcg32 from a seed number and a stream.
    pub fn new_pcg32_with_stream(seed: u64, stream: u64) -> Self {
        Self::made(|state, _| exports::vrd_pcg32_with_stream_in(state, seed, stream))
    }

    /// Pcg64 from a seed number and a stream.
    pub fn new_pcg64_with_stream(seed: u128, stream: u128) -> Self {
        Self::made(|state, _| exports::vrd_pcg64_with_stream_in(state, seed.into(), stream.into()))
    }

    /// A generator of any kind from bytes: 32, 32, 16 and 32 of them for the kinds 0 to 3.
    ///
    /// Refused are a kind above 3 ([`Refusal::Kind`]) and then another length ([`Refusal::SeedLength`]).
    pub fn make(kind: u32, seed: &[u8]) -> Result<Self, Refusal> {
        let mut made = Self::BLANK;
        Refusal::or(exports::make(&mut made.state, &mut made.table, kind, seed), made)
    }

    /// A generator with these parts, taken as they are: all zeros, an even increment and a position above 624 too.
    ///
    /// ```
    /// use vrd::{Parts, Random};
    ///
    /// let mut unit = Random::from_parts(Parts::Xoshiro256PlusPlus([1, 2, 3, 4]));
    /// assert_eq!([unit.u64(), unit.u64()], [41943041, 58720359]);
    /// ```
    pub fn from_parts(parts: Parts<'_>) -> Self {
        match parts {
            Parts::Xoshiro256PlusPlus([s0, s1, s2, s3]) => Self { state: [0, 0, s0, s1, s2, s3], ..Self::BLANK },
            Parts::MersenneTwister { table, mti } => Self { state: [1, mti.into(), 0, 0, 0, 0], table: *table },
            Parts::Pcg32 { state, inc } => Self { state: [2, 0, state, inc, 0, 0], ..Self::BLANK },
            Parts::Pcg64 { state, inc } => {
                let (state, inc) = (exports::Wide::from(state), exports::Wide::from(inc));
                Self { state: [3, 0, state.high, state.low, inc.high, inc.low], ..Self::BLANK }
            }
        }
    }

    /// Where a generator is made: zeros, of which the maker writes what its kind uses.
    pub(crate) const BLANK: Self = Self { state: [0; 6], table: [0; 624] };

    /// What a maker that refuses nothing writes there.
    fn made(maker: impl FnOnce(&mut State, &mut Table)) -> Self {
        let mut made = Self::BLANK;
        maker(&mut made.state, &mut made.table);
        made
    }
}
