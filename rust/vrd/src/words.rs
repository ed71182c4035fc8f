//! Words as they come, and bytes filled with them.

use crate::{exports, Random};

/// # Words
///
/// They can't be refused and tell no count: a word is one step of the generator (of 32 or of 64 bits, see [`Random::u64`]).
///
/// ```
/// use vrd::Random;
///
/// // The number that the C++ standard gives for the 10000th word of MT19937.
/// let mut twister = Random::new_mersenne_twister_with_seed(5489);
/// for _ in 1..10_000 {
///     twister.rand();
/// }
/// assert_eq!(twister.rand(), 4_123_659_995);
///
/// // 64 bits are two words of the twister, the first of them high.
/// let mut words = twister.clone();
/// let (high, low) = (words.rand(), words.rand());
/// assert_eq!(twister.u64(), u64::from(high) << 32 | u64::from(low));
///
/// // Bytes are words, the lowest byte first; a short tail takes a whole word.
/// let mut bytes = [0; 5];
/// let (first, second) = (words.rand(), words.rand());
/// twister.fill_bytes(&mut bytes);
/// assert_eq!(bytes[..4], first.to_le_bytes());
/// assert_eq!(bytes[4], second as u8);
/// assert!(twister == words);
/// ```
impl Random {
    /// The next word of 32 bits; on Xoshiro256++ and Pcg64 the high half of a word of 64.
    #[inline]
    pub fn rand(&mut self) -> u32 {
        exports::vrd_rand_in(&mut self.state, &mut self.table).value as u32
    }

    /// The next word of 64 bits: one word of Xoshiro256++ and Pcg64, two of the twister (the high half first) and of Pcg32 (the
    /// low half first).
    #[inline]
    pub fn u64(&mut self) -> u64 {
        exports::vrd_u64_in(&mut self.state, &mut self.table).value
    }

    /// [`Random::u64`], read as a signed number.
    #[inline]
    pub fn i64(&mut self) -> i64 {
        exports::vrd_i64_in(&mut self.state, &mut self.table).value
    }

    /// 32 words XORed.
    #[inline]
    pub fn pseudo(&mut self) -> u32 {
        exports::vrd_pseudo_in(&mut self.state, &mut self.table).value as u32
    }

    /// Fills the buffer: by words of 8 bytes on Xoshiro256++ and Pcg64 and of 4 on the others, the lowest byte first. A short tail
    /// takes a whole word.
    #[inline]
    pub fn fill_bytes(&mut self, dest: &mut [u8]) {
        exports::fill_bytes(&mut self.state, &mut self.table, dest);
    }
}
