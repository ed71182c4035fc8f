//! Seeds to compare the makers with: the edges of each width, then pseudo-random ones.

use simple::Simple;
use std::iter::repeat_with;

/// Seeds for each maker.
const COUNT: usize = 1_000;

/// 128-bit numbers: 0, the largest, each power of two and its neighbours' edges, then pseudo-random ones.
pub fn wide() -> Vec<u128> {
    let mut numbers = vec![0, u128::MAX, u128::MAX - 1, 3, 0xBAD1_DEAA_5BD1_CAFE, 1_442_695_040_888_963_407];
    numbers.extend((0..128).map(|k| 1u128 << k));
    numbers.extend((1..128).map(|k| (1u128 << k) - 1));
    let mut simple = Simple::new(128);
    numbers.extend(repeat_with(|| simple.wide()).take(COUNT - numbers.len()));
    numbers
}

/// 64-bit numbers, likewise.
pub fn long() -> Vec<u64> {
    let mut numbers = vec![0, u64::MAX, u64::MAX - 1, 3, 0xBAD1_DEAA_5BD1_CAFE, 1_442_695_040_888_963_407];
    numbers.extend((0..64).map(|k| 1u64 << k));
    numbers.extend((1..64).map(|k| (1u64 << k) - 1));
    let mut simple = Simple::new(64);
    numbers.extend(repeat_with(|| simple.long()).take(COUNT - numbers.len()));
    numbers
}

/// 32-bit numbers, likewise.
pub fn short() -> Vec<u32> {
    let mut numbers = vec![0, u32::MAX, u32::MAX - 1, 3, 5489, 19_650_218];
    numbers.extend((0..32).map(|k| 1u32 << k));
    numbers.extend((1..32).map(|k| (1u32 << k) - 1));
    let mut simple = Simple::new(32);
    numbers.extend(repeat_with(|| simple.word()).take(COUNT - numbers.len()));
    numbers
}

/// Pairs of a seed and a stream: the edges of each with the edges of the other, then pseudo-random ones.
pub fn pairs<T: Copy>(numbers: &[T]) -> Vec<(T, T)> {
    let edges = &numbers[..20];
    let mut pairs: Vec<_> = edges.iter().flat_map(|&a| edges.iter().map(move |&b| (a, b))).collect();
    let rest = numbers.iter().zip(numbers.iter().rev()).map(|(&a, &b)| (a, b));
    pairs.extend(rest.take(COUNT - pairs.len()));
    pairs
}

/// Byte seeds: every constant byte (its words XOR to 0), every single byte of 1 and of 128, then pseudo-random ones.
pub fn bytes<const N: usize>() -> Vec<[u8; N]> {
    let mut seeds: Vec<[u8; N]> = (0..=255).map(|byte| [byte; N]).collect();
    for place in 0..N {
        for byte in [1, 128] {
            let mut seed = [0; N];
            seed[place] = byte;
            seeds.push(seed);
        }
    }
    let mut simple = Simple::new(N as u64);
    seeds.extend(repeat_with(|| [0; N].map(|_| simple.long() as u8)).take(COUNT - seeds.len()));
    seeds
}
