//! Words of the original's Pcg32 and Pcg64 as hexadecimal numbers; their parts as decimal ones.

use crate::{hex, line};
use vrd_original::pcg::{Pcg32, Pcg64};
use vrd_original::rand_core::SeedableRng;

/// Words in a line.
const WORDS: usize = 6;

/// Lines from seeds, streams, bytes, and increments set by hand.
pub fn print() {
    small();
    large();
}

fn small() {
    sample32("pcg32.42-54", Pcg32::from_seed_stream(42, 54));
    sample32("pcg32.42-55", Pcg32::from_seed_stream(42, 55));
    sample32("pcg32.42-54-top-bit", Pcg32::from_seed_stream(42, 54 | 1 << 63));
    sample32("pcg32.42", Pcg32::from_u64_seed(42));
    for stream in [54, 55] {
        sample32(&format!("pcg32.bytes-42-{stream}"), Pcg32::from_seed(join(42u64.to_le_bytes(), [stream, 0, 0, 0, 0, 0, 0, 0])));
    }
    for inc in [108, 109] {
        sample32(&format!("pcg32.state-7-increment-{inc}"), Pcg32::from_parts(7, inc));
    }
    // From state 1 and increment 0 the next state is the multiplier.
    let mut one = Pcg32::from_parts(1, 0);
    one.next_u32();
    let (state, inc) = Pcg32::from_seed_stream(42, 54).parts();
    line("pcg32.multiplier-increment-state", [one.parts().0, inc, state]);
    line("pcg32.default-increment", [Pcg32::from_u64_seed(42).parts().1]);
    let mut halves = Pcg32::from_seed_stream(42, 54);
    hex("pcg32.u64-42-54", (0..WORDS / 2).map(|_| halves.next_u64()));
    let mut words = Pcg32::from_seed_stream(42, 54);
    let mut low_first = || u64::from(words.next_u32()) | u64::from(words.next_u32()) << 32;
    hex("pcg32.pairs-low-first-42-54", (0..WORDS / 2).map(|_| low_first()));
}

fn large() {
    sample64("pcg64.42-54", Pcg64::from_seed_stream(42, 54));
    sample64("pcg64.42", Pcg64::from_u128_seed(42));
    for inc in [108, 109] {
        sample64(&format!("pcg64.state-7-increment-{inc}"), Pcg64::from_parts(7, inc));
    }
    let mut one = Pcg64::from_parts(1, 0);
    one.next_u64();
    let (state, inc) = Pcg64::from_seed_stream(42, 54).parts();
    line("pcg64.multiplier-increment-state", [one.parts().0, inc, state]);
    line("pcg64.default-increment", [Pcg64::from_u128_seed(42).parts().1]);
}

fn sample32(name: &str, mut g: Pcg32) {
    hex(name, (0..WORDS).map(|_| g.next_u32().into()));
}

/// The words from the first, and the words from the second.
fn sample64(name: &str, mut g: Pcg64) {
    let words: Vec<u64> = (0..=WORDS).map(|_| g.next_u64()).collect();
    hex(name, words[..WORDS].iter().copied());
    hex(&format!("{name}-from-the-second"), words[1..].iter().copied());
}

/// Seed bytes, then stream bytes.
fn join(seed: [u8; 8], stream: [u8; 8]) -> [u8; 16] {
    std::array::from_fn(|place| if place < 8 { seed[place] } else { stream[place - 8] })
}
