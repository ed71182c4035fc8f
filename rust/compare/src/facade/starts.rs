//! Where the comparisons of the facade begin: seeds, streams, byte seeds and states set by hand, of each kind.

use simple::Simple;
use vrd_original::pcg::{Pcg32, Pcg64};
use vrd_original::rand_core::SeedableRng;
use vrd_original::xoshiro::Xoshiro256PlusPlus;
use vrd_original::{MersenneTwister, Random, RngBackend};

/// The positions where something changes, and some far outside the table.
pub const POSITIONS: [u32; 10] = [0, 1, 226, 227, 622, 623, 624, 625, 1_000, u32::MAX];

pub fn xoshiro(x: Xoshiro256PlusPlus) -> Random {
    Random::from_backend(RngBackend::Xoshiro256PlusPlus(x))
}

pub fn twister(mt: [u32; 624], mti: u32) -> Random {
    let twister = MersenneTwister { mt, mti: mti as usize };
    Random::from_backend(RngBackend::MersenneTwister(Box::new(twister)))
}

pub fn pcg32(p: Pcg32) -> Random {
    Random::from_backend(RngBackend::Pcg32(p))
}

pub fn pcg64(p: Pcg64) -> Random {
    Random::from_backend(RngBackend::Pcg64(p))
}

/// The table that a seed makes.
pub fn table(seed: u32) -> [u32; 624] {
    let mut twister = MersenneTwister::new();
    twister.seed(seed);
    twister.mt
}

/// Whether the generator gives the word 0 for ever.
pub fn stands_still(g: &Random) -> bool {
    let mut at = g.clone();
    (0..2_000).all(|_| at.rand() == 0)
}

/// Seeds, streams, byte seeds, and ordinary states set by hand.
fn made(kind: usize) -> Vec<Random> {
    let mut simple = Simple::new(7 + kind as u64);
    match kind {
        0 => {
            let mut all: Vec<_> = [0, 1, 42, u64::MAX].map(|seed| xoshiro(Xoshiro256PlusPlus::from_u64_seed(seed))).into();
            all.push(xoshiro(Xoshiro256PlusPlus::from_seed([9; 32])));
            all.push(xoshiro(Xoshiro256PlusPlus::from_parts([1, 2, 3, 4])));
            all.push(xoshiro(Xoshiro256PlusPlus::from_parts([simple.long(), simple.long(), 0, 0])));
            all
        }
        1 => {
            let mut all: Vec<_> = [0, 1, 5489, u32::MAX].map(Random::new_mersenne_twister_with_seed).into();
            all.extend(POSITIONS.map(|mti| twister(table(42), mti)));
            all
        }
        2 => vec![
            pcg32(Pcg32::from_u64_seed(0)),
            pcg32(Pcg32::from_seed_stream(42, 54)),
            pcg32(Pcg32::from_seed_stream(u64::MAX, u64::MAX)),
            pcg32(Pcg32::from_seed([7; 16])),
            pcg32(Pcg32::from_parts(simple.long(), 108)),
        ],
        _ => vec![
            pcg64(Pcg64::from_u128_seed(0)),
            pcg64(Pcg64::from_seed_stream(42, 54)),
            pcg64(Pcg64::from_seed_stream(u128::MAX, u128::MAX)),
            pcg64(Pcg64::from_seed([7; 32])),
            pcg64(Pcg64::from_parts(simple.wide(), 1 << 64)),
        ],
    }
}

/// These and states that stand still or hardly move: zeros, ones, even increments.
pub fn all(kind: usize) -> Vec<Random> {
    let mut all = made(kind);
    match kind {
        0 => all.extend([[0; 4], [u64::MAX; 4], [0, 0, 0, 1]].map(|state| xoshiro(Xoshiro256PlusPlus::from_parts(state)))),
        1 => {
            for mt in [[0; 624], [u32::MAX; 624], [0x8000_0000; 624]] {
                all.extend(POSITIONS.map(|mti| twister(mt, mti)));
            }
        }
        2 => {
            let incs = [0, 1, 2, u64::MAX - 1, u64::MAX];
            all.extend([0, u64::MAX].iter().flat_map(|&state| incs.map(|inc| pcg32(Pcg32::from_parts(state, inc)))));
        }
        _ => {
            let incs = [0, 1, 2, 1 << 64, u128::MAX - 1, u128::MAX];
            all.extend([0, u128::MAX].iter().flat_map(|&state| incs.map(|inc| pcg64(Pcg64::from_parts(state, inc)))));
        }
    }
    all
}
