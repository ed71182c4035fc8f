//! Numbers drawn within a budget of words: below a bound, between two ends, a letter.

use crate::answers::{number, small};
use crate::{exports, Drawn, Random, Refusal};

/// # Draws within a budget
///
/// Each value is exactly as likely as every other; a word that would spoil that is rejected, and the next one looked at. The
/// budget, any 32-bit number, is the most words that the call may look at. Where they don't suffice the call is refused
/// with [`Refusal::Budget`], which is looked at last. A larger budget never changes an answer given.
///
/// ```
/// use vrd::{Parts, Random, Refusal};
///
/// // A twister whose next words are 0, 0 and 0x400091: a draw below 3 rejects the word 0.
/// let mut table = [0; 624];
/// table[2] = 1;
/// let mut unit = Random::from_parts(Parts::MersenneTwister { table: &table, mti: 0 });
/// let before = unit.clone();
/// assert_eq!(unit.bounded(3, 2), Err(Refusal::Budget));
/// assert!(unit == before);
/// let drawn = unit.bounded(3, 3)?;
/// assert_eq!((drawn.value, drawn.used), (0, 3));
///
/// // Ends that are equal need no word.
/// assert_eq!(unit.int(-5, -5, 0)?.value, -5);
/// assert_eq!(unit.int(1, -1, 100), Err(Refusal::Order));
/// # Ok::<(), Refusal>(())
/// ```
impl Random {
    /// A number below `bound`.
    ///
    /// Refused where the bound is 0 ([`Refusal::ZeroRange`]).
    #[inline]
    pub fn bounded(&mut self, bound: u32, budget: u32) -> Result<Drawn<u32>, Refusal> {
        number(exports::vrd_bounded_in(&mut self.state, &mut self.table, bound, budget))
    }

    /// A number from `min` up to `max - 1`.
    ///
    /// Refused where `min` is not below `max` ([`Refusal::Order`]).
    #[inline]
    pub fn random_range(&mut self, min: u32, max: u32, budget: u32) -> Result<Drawn<u32>, Refusal> {
        number(exports::vrd_random_range_in(&mut self.state, &mut self.table, min, max, budget))
    }

    /// A number from `min` up to `max`, both included. Equal ends need no word; over all 2^32 numbers it is one word as it comes.
    ///
    /// Refused where `min` is above `max` ([`Refusal::Order`]).
    #[inline]
    pub fn int(&mut self, min: i32, max: i32, budget: u32) -> Result<Drawn<i32>, Refusal> {
        small(exports::vrd_int_in(&mut self.state, &mut self.table, min, max, budget))
    }

    /// [`Random::int`] by its other name.
    #[inline]
    pub fn range(&mut self, min: i32, max: i32, budget: u32) -> Result<Drawn<i32>, Refusal> {
        small(exports::vrd_range_in(&mut self.state, &mut self.table, min, max, budget))
    }

    /// [`Random::int`] over numbers without a sign.
    #[inline]
    pub fn uint(&mut self, min: u32, max: u32, budget: u32) -> Result<Drawn<u32>, Refusal> {
        number(exports::vrd_uint_in(&mut self.state, &mut self.table, min, max, budget))
    }

    /// A letter from `'a'` to `'z'`.
    #[inline]
    pub fn char(&mut self, budget: u32) -> Result<Drawn<char>, Refusal> {
        let letter = number(exports::vrd_char_in(&mut self.state, &mut self.table, budget));
        // The export answers the letter's ASCII code, from 97 to 122.
        letter.map(|drawn| Drawn { value: char::from(drawn.value as u8), used: drawn.used })
    }
}
