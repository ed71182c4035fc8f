//! Words of the original's Xoshiro256PlusPlus and its SplitMix64, as hexadecimal numbers.

use crate::hex;
use vrd_original::xoshiro::Xoshiro256PlusPlus;

/// Lines from states, seeds and bytes, with jumps.
pub fn print() {
    let small = Xoshiro256PlusPlus::from_parts([1, 2, 3, 4]);
    let seeded = Xoshiro256PlusPlus::from_u64_seed(42);
    sample("xoshiro.state-1-2-3-4", small);
    sample("xoshiro.state-1-2-3-4-jump", jumped(small));
    sample("xoshiro.seed-42", seeded);
    sample("xoshiro.seed-42-jump", jumped(seeded));
    sample("xoshiro.zeros", Xoshiro256PlusPlus::from_parts([0; 4]));
    let mut halves = small;
    hex("xoshiro.state-1-2-3-4-u32", (0..10).map(|_| halves.next_u32().into()));
    // A fresh state is four outputs of SplitMix64.
    for seed in [0, 42, 1_234_567, 0xBAD1_DEAA_5BD1_CAFE] {
        hex(&format!("splitmix64.{seed}"), Xoshiro256PlusPlus::from_u64_seed(seed).parts());
    }
    let bytes: [u8; 32] = std::array::from_fn(|place| place as u8 * 7 + 1);
    let words: [u64; 4] = std::array::from_fn(|k| u64::from_le_bytes(std::array::from_fn(|b| bytes[8 * k + b])));
    hex("xoshiro.bytes", Xoshiro256PlusPlus::from_seed(bytes).parts());
    hex("xoshiro.bytes-as-the-state", words);
    let folded = words.iter().fold(0, |xor, word| xor ^ word);
    hex("xoshiro.bytes-folded-to-a-number", Xoshiro256PlusPlus::from_u64_seed(folded).parts());
    hex("xoshiro.constant-bytes", Xoshiro256PlusPlus::from_seed([7; 32]).parts());
}

/// The first 10 words.
fn sample(name: &str, mut g: Xoshiro256PlusPlus) {
    hex(name, (0..10).map(|_| g.next_u64()));
}

fn jumped(mut g: Xoshiro256PlusPlus) -> Xoshiro256PlusPlus {
    g.jump();
    g
}
