//! The generator before a call, in a few words: kind, maker, words skipped, and the maker's eight words.

use simple::Simple;
use vrd_original::pcg::{Pcg32, Pcg64};
use vrd_original::rand_core::SeedableRng;
use vrd_original::xoshiro::Xoshiro256PlusPlus;
use vrd_original::{MersenneTwister, Random, RngBackend};

/// How a generator is made of eight words.
#[derive(Clone, Copy, PartialEq)]
pub enum Maker {
    /// A seed number of up to 128 bits, low word first.
    Seed = 0,
    /// Kinds 2 and 3: a seed in the first four words and a stream in the others, low word first.
    Stream = 1,
    /// 32 bytes, for kind 2 the first 16.
    Bytes = 2,
    /// Four numbers of 64 bits, low word first: xoshiro's state; Pcg32's state and increment; Pcg64's, the high number first. For the
    /// twister the seed that its table is made of, and the position.
    Parts = 3,
}

#[derive(Clone, Copy)]
pub struct Start {
    pub kind: u32,
    pub maker: Maker,
    pub skipped: u32,
    pub words: [u32; 8],
}

impl Start {
    pub fn new(kind: u32, maker: Maker, words: [u32; 8]) -> Self {
        Self { kind, maker, skipped: 0, words }
    }

    /// From a seed number of 64 bits.
    pub fn seed(kind: u32, seed: u64) -> Self {
        Self::new(kind, Maker::Seed, [seed as u32, (seed >> 32) as u32, 0, 0, 0, 0, 0, 0])
    }

    /// The twister at a position that is set by hand.
    pub fn at(seed: u32, position: u32) -> Self {
        Self::new(1, Maker::Parts, [seed, position, 0, 0, 0, 0, 0, 0])
    }

    /// The first word is 0, which most bounds reject: xoshiro's first and last word, a PCG's state, the first entry of the table of seed 0.
    fn zero_first(kind: u32, simple: &mut Simple) -> Self {
        let [a, b, c, d] = [0; 4].map(|_| simple.word());
        match kind {
            0 | 2 => Self::new(kind, Maker::Parts, [0, 0, a, b, c, d, 0, 0]),
            1 => Self::at(0, 0),
            _ => Self::new(kind, Maker::Parts, [0, 0, 0, 0, a, b, c, d]),
        }
    }

    /// Any words, one maker after the other, some words skipped; each fifth time the first word is 0. The twister's position is 624 or
    /// less.
    pub fn any(kind: u32, turn: usize, simple: &mut Simple) -> Self {
        if turn % 5 == 4 {
            return Self::zero_first(kind, simple);
        }
        let maker = [Maker::Seed, Maker::Stream, Maker::Bytes, Maker::Parts][turn % 4];
        let mut words = [0; 8].map(|_| simple.word());
        let maker = if maker == Maker::Stream && kind < 2 { Maker::Seed } else { maker };
        if maker == Maker::Parts && kind == 1 {
            words[1] %= 625;
        }
        let skipped = if turn.is_multiple_of(3) { 0 } else { simple.below(1_500) };
        Self { skipped, ..Self::new(kind, maker, words) }
    }

    pub fn generator(&self) -> Random {
        let mut g = Random::from_backend(self.made());
        for _ in 0..self.skipped {
            g.rand();
        }
        g
    }

    fn made(&self) -> RngBackend {
        let long = |k: usize| u64::from(self.words[2 * k + 1]) << 32 | u64::from(self.words[2 * k]);
        let wide = |low: u64, high: u64| u128::from(high) << 64 | u128::from(low);
        match (self.kind, self.maker) {
            (0, Maker::Bytes) => RngBackend::Xoshiro256PlusPlus(Xoshiro256PlusPlus::from_seed(self.bytes())),
            (0, Maker::Parts) => RngBackend::Xoshiro256PlusPlus(Xoshiro256PlusPlus::from_parts([0, 1, 2, 3].map(long))),
            (0, _) => RngBackend::Xoshiro256PlusPlus(Xoshiro256PlusPlus::from_u64_seed(long(0))),
            (1, maker) => RngBackend::MersenneTwister(Box::new(self.twister(maker))),
            (2, Maker::Seed) => RngBackend::Pcg32(Pcg32::from_u64_seed(long(0))),
            (2, Maker::Stream) => RngBackend::Pcg32(Pcg32::from_seed_stream(long(0), long(2))),
            (2, Maker::Bytes) => RngBackend::Pcg32(Pcg32::from_seed(self.bytes())),
            (2, Maker::Parts) => RngBackend::Pcg32(Pcg32::from_parts(long(0), long(1))),
            (_, Maker::Seed) => RngBackend::Pcg64(Pcg64::from_u128_seed(wide(long(0), long(1)))),
            (_, Maker::Stream) => RngBackend::Pcg64(Pcg64::from_seed_stream(wide(long(0), long(1)), wide(long(2), long(3)))),
            (_, Maker::Bytes) => RngBackend::Pcg64(Pcg64::from_seed(self.bytes())),
            (_, Maker::Parts) => RngBackend::Pcg64(Pcg64::from_parts(wide(long(1), long(0)), wide(long(3), long(2)))),
        }
    }

    fn twister(&self, maker: Maker) -> MersenneTwister {
        if maker == Maker::Bytes {
            return MersenneTwister::from_seed(self.bytes());
        }
        let mut twister = MersenneTwister::new();
        twister.seed(self.words[0]);
        if maker == Maker::Parts {
            twister.mti = self.words[1] as usize;
        }
        twister
    }

    fn bytes<const N: usize>(&self) -> [u8; N] {
        let mut bytes = self.words.iter().flat_map(|word| word.to_le_bytes());
        [0; N].map(|_| bytes.next().expect("no seed has more than 32 bytes"))
    }
}
