//! States whose words are 0 at a place that is chosen, and go on changing after it: nearly every bound rejects the word 0.

use super::starts::{pcg32, pcg64, table, twister, xoshiro};
use vrd_original::pcg::{Pcg32, Pcg64};
use vrd_original::xoshiro::Xoshiro256PlusPlus;
use vrd_original::Random as Original;

/// How many words come before the words that are 0: for a shuffle that is in mid-list.
const BEFORE: [usize; 5] = [0, 1, 3, 10, 30];

/// How many words of the twister are 0.
const ZEROS: [usize; 3] = [1, 2, 5];

/// The words of a state are 0 because:
/// kind 0: the first word is made of s0 and s3 alone; with the second s1 (found by search) the word after it is 0 too.
/// kind 1: an entry of 0 is the word 0.
/// kind 2: a state below 2^27 gives 0; from state 0 the next state is the increment.
/// kind 3: a state whose halves are equal gives 0.
pub fn starts(kind: usize) -> Vec<Original> {
    let back = |make: &dyn Fn(usize) -> Original| BEFORE.map(make);
    let starts: Vec<Original> = match kind {
        0 => [0x1234_5678_9ABC_DEF0, 0xE5A5_9B80_0159_010C]
            .iter()
            .flat_map(|&s1| back(&|n| xoshiro(xoshiro_before([0, s1, 0x0FED_CBA9_8765_4321, 0], n))))
            .collect(),
        1 => ZEROS.iter().flat_map(|&k| back(&|n| zeros_at(n, k))).chain(ZEROS.map(|k| zeros_at(624 - k, k))).collect(),
        2 => [0x1234_5678_9ABC_DEF1, 12_345].iter().flat_map(|&inc| back(&|n| pcg32(pcg32_before(inc, n)))).collect(),
        _ => [0x1234_5678_9ABC_DEF0_0FED_CBA9_8765_4321, 0x0FED_CBA9_8765_4321_0FED_CBA9_8765_4321]
            .iter()
            .flat_map(|&inc| back(&|n| pcg64(pcg64_before(inc, n))))
            .collect(),
    };
    for start in &starts {
        assert!(first_zero(start) <= 30, "no word of the state is 0");
    }
    starts
}

/// The words before the first that is 0.
fn first_zero(start: &Original) -> usize {
    let mut at = start.clone();
    (0..1_000).take_while(|_| at.rand() != 0).count()
}

/// A table with k entries of 0 after n others; where they end the table, at the position of the first of them.
fn zeros_at(n: usize, k: usize) -> Original {
    let mut mt = table(4_357);
    mt[n..n + k].fill(0);
    twister(mt, if n + k == 624 { n as u32 } else { 0 })
}

/// The state n steps before this one.
fn xoshiro_before(state: [u64; 4], n: usize) -> Xoshiro256PlusPlus {
    let [mut s0, mut s1, mut s2, mut s3] = state;
    for _ in 0..n {
        s3 = s3.rotate_right(45);
        s0 ^= s3;
        // What s1 ^ (s1 << 17) was.
        let mixed = s1 ^ s2;
        let old = mixed ^ (mixed << 17) ^ (mixed << 34) ^ (mixed << 51);
        s2 = s1 ^ old ^ s0;
        s1 = old;
        s3 ^= s1;
    }
    let before = Xoshiro256PlusPlus::from_parts([s0, s1, s2, s3]);
    let mut again = before;
    for _ in 0..n {
        again.next_u64();
    }
    assert_eq!(again.parts(), state, "a step back is not the inverse of a step");
    before
}

/// The state n steps before state 0 with this increment.
fn pcg32_before(inc: u64, n: usize) -> Pcg32 {
    let multiplier: u64 = 6_364_136_223_846_793_005;
    // Newton's iteration: each round doubles the bits that are right.
    let inverse = (0..6).fold(multiplier, |x, _| x.wrapping_mul(2u64.wrapping_sub(multiplier.wrapping_mul(x))));
    let state = (0..n).fold(0u64, |state, _| state.wrapping_sub(inc).wrapping_mul(inverse));
    let mut again = Pcg32::from_parts(state, inc);
    for _ in 0..n {
        again.next_u32();
    }
    assert_eq!(again.parts(), (0, inc), "a step back is not the inverse of a step");
    Pcg32::from_parts(state, inc)
}

/// The state n steps before state 0 with this increment.
fn pcg64_before(inc: u128, n: usize) -> Pcg64 {
    let multiplier: u128 = 0x2360_ED05_1FC6_5DA4_4385_DF64_9FCC_F645;
    let inverse = (0..7).fold(multiplier, |x, _| x.wrapping_mul(2u128.wrapping_sub(multiplier.wrapping_mul(x))));
    let state = (0..n).fold(0u128, |state, _| state.wrapping_sub(inc).wrapping_mul(inverse));
    let mut again = Pcg64::from_parts(state, inc);
    for _ in 0..n {
        again.next_u64();
    }
    assert_eq!(again.parts(), (0, inc), "a step back is not the inverse of a step");
    Pcg64::from_parts(state, inc)
}
