//! The names, arguments and answers of the exports: the one place to change when `bench_ffi`, `bench_lent` or `bench_values` does.

use vrd::exports::{State, Table, Wide, Word};

/// Four words.
#[repr(C)]
#[derive(Clone, Copy, Debug, Eq, PartialEq)]
pub struct Xoshiro256PlusPlus {
    pub s0: u64,
    pub s1: u64,
    pub s2: u64,
    pub s3: u64,
}

/// State and increment in use.
#[repr(C)]
#[derive(Clone, Copy, Debug, Eq, PartialEq)]
pub struct Pcg32 {
    pub state: u64,
    pub inc: u64,
}

/// State and increment in use.
#[repr(C)]
#[derive(Clone, Copy, Debug, Eq, PartialEq)]
pub struct Pcg64 {
    pub state: Wide,
    pub inc: Wide,
}

/// The table and the position, held together.
#[repr(C)]
#[derive(Clone, Debug, Eq, PartialEq)]
pub struct MersenneTwister {
    pub mt: Table,
    pub mti: u32,
}

/// A word (or the XOR of several) and the generator after it.
#[repr(C)]
pub struct Drawn<W, G> {
    pub word: W,
    pub next: G,
}

/// A word (or the XOR of several) drawn from a lent table, and the position after it.
#[repr(C)]
pub struct Placed<W> {
    pub word: W,
    pub mti: u32,
}

/// The sums of the values and of the words used, modulo 2^64.
#[repr(C)]
#[derive(Clone, Copy, Debug, Eq, PartialEq)]
pub struct Sums {
    pub sum: u64,
    pub used: u64,
    pub refusal: u32,
}

unsafe extern "C" {
    pub safe fn wrapping_mul_u32(a: u32, b: u32) -> u32;
    pub safe fn wrapping_mul_u64(a: u64, b: u64) -> u64;
    pub safe fn wrapping_rotate_left_u32(x: u32, k: u32) -> u32;
    pub safe fn wrapping_rotate_right_u32(x: u32, k: u32) -> u32;
    pub safe fn wrapping_rotate_left_u64(x: u64, k: u32) -> u64;
    pub safe fn wrapping_rotate_right_u64(x: u64, k: u32) -> u64;
    pub safe fn wrapping_add_wide(a: Wide, b: Wide) -> Wide;
    pub safe fn wrapping_mul_wide(a: Wide, b: Wide) -> Wide;
}

unsafe extern "C" {
    pub safe fn xoshiro_from_u64_seed(seed: u64) -> Xoshiro256PlusPlus;
    pub safe fn xoshiro_from_seed(seed: &[u8; 32]) -> Xoshiro256PlusPlus;
    pub safe fn xoshiro_next_u64(g: Xoshiro256PlusPlus) -> Drawn<u64, Xoshiro256PlusPlus>;
    pub safe fn xoshiro_next_u32(g: Xoshiro256PlusPlus) -> Drawn<u32, Xoshiro256PlusPlus>;
    pub safe fn xoshiro_jump(g: Xoshiro256PlusPlus) -> Xoshiro256PlusPlus;
    pub safe fn xoshiro_words(g: Xoshiro256PlusPlus, n: u64) -> Drawn<u64, Xoshiro256PlusPlus>;

    pub safe fn pcg32_from_u64_seed(seed: u64) -> Pcg32;
    pub safe fn pcg32_from_seed_stream(seed: u64, stream: u64) -> Pcg32;
    pub safe fn pcg32_from_seed(seed: &[u8; 16]) -> Pcg32;
    pub safe fn pcg32_next_u32(g: Pcg32) -> Drawn<u32, Pcg32>;
    pub safe fn pcg32_next_u64(g: Pcg32) -> Drawn<u64, Pcg32>;
    pub safe fn pcg32_words(g: Pcg32, n: u64) -> Drawn<u32, Pcg32>;

    pub safe fn pcg64_from_u128_seed(seed: Wide) -> Pcg64;
    pub safe fn pcg64_from_seed_stream(seed: Wide, stream: Wide) -> Pcg64;
    pub safe fn pcg64_from_seed(seed: &[u8; 32]) -> Pcg64;
    pub safe fn pcg64_next_u64(g: Pcg64) -> Drawn<u64, Pcg64>;
    pub safe fn pcg64_next_u32(g: Pcg64) -> Drawn<u32, Pcg64>;
    pub safe fn pcg64_words(g: Pcg64, n: u64) -> Drawn<u64, Pcg64>;

    // The lent form: the caller keeps the table and the position. Makers answer the position.
    pub safe fn mt_seed(table: &mut Table, seed: u32) -> u32;
    pub safe fn mt_from_seed(table: &mut Table, seed: &[u8; 32]) -> u32;
    pub safe fn mt_rand(table: &mut Table, mti: u32) -> Placed<u32>;
    pub safe fn mt_next_u64(table: &mut Table, mti: u32) -> Placed<u64>;
    pub safe fn mt_twist(table: &mut Table) -> u32;
    pub safe fn mt_set_mti(value: u32) -> u32;
    pub safe fn mt_words(table: &mut Table, mti: u32, n: u64) -> Placed<u32>;

    // By value: the whole generator goes in and comes back.
    pub safe fn mt_value_seed(seed: u32) -> MersenneTwister;
    pub safe fn mt_value_rand(g: MersenneTwister) -> Drawn<u32, MersenneTwister>;
    pub safe fn mt_value_words(g: MersenneTwister, n: u64) -> Drawn<u32, MersenneTwister>;
}

// Loops over the facade: n words of 32 bits XORed, and n draws below a bound, each within the budget. A refused draw adds nothing. A kind
// above 3 is refused with 10.
unsafe extern "C" {
    // Over the lent generator: the export of `bench_lent`.
    pub safe fn bench_draws_in(state: &mut State, table: &mut Table, bound: u32, budget: u32, n: u64) -> Sums;

    // Each word and draw by the library's call by value: the exports of `bench_values`.
    pub safe fn bench_words_by_value(state: &mut State, table: &mut Table, n: u64) -> Word<u64>;
    pub safe fn bench_draws_by_value(state: &mut State, table: &mut Table, bound: u32, budget: u32, n: u64) -> Sums;
}
