//! The generators of the rand family, which the build script compiles from Debian's sources. The streams are the original's defaults.

extern crate rand_core;
extern crate rand_pcg;
extern crate rand_xoshiro;

use self::rand_core::{RngCore, SeedableRng};
use self::rand_pcg::{Pcg32, Pcg64};
use self::rand_xoshiro::Xoshiro256PlusPlus;

const STREAM_64: u64 = 1_442_695_040_888_963_407;
const STREAM_128: u128 = 0x5851_F42D_4C95_7F2D_1405_7B7E_F767_814F;

/// The XOR of n words.
#[inline(never)]
fn xor<G>(mut g: G, n: u64, next: impl Fn(&mut G) -> u64) -> u64 {
    (0..n).fold(0, |xor, _| xor ^ next(&mut g))
}

pub fn xoshiro(seed: u64, n: u64) -> u64 {
    xor(Xoshiro256PlusPlus::seed_from_u64(seed), n, RngCore::next_u64)
}

pub fn pcg32(seed: u64, n: u64) -> u64 {
    xor(Pcg32::new(seed, STREAM_64), n, |g| g.next_u32().into())
}

/// Its words come out of the state after the step, the original's out of the one before: a step back makes them one.
pub fn pcg64(seed: u64, n: u64) -> u64 {
    let mut generator = Pcg64::new(seed.into(), STREAM_128);
    generator.advance(u128::MAX);
    xor(generator, n, RngCore::next_u64)
}
