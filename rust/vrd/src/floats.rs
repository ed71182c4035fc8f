//! Floats: from 0 up to 1, a chance, and a number of an interval. They reject no word, and so take no budget.

use crate::answers::small;
use crate::{exports, Drawn, Random, Refusal};

/// # Floats
///
/// ```
/// use vrd::{Random, Refusal};
///
/// let mut unit = Random::new_pcg64_with_seed(42);
/// let word = unit.clone().rand();
/// assert_eq!(unit.float(), (word >> 8) as f32 / 16_777_216.0);
///
/// let word = unit.clone().u64();
/// assert_eq!(unit.double(), (word >> 11) as f64 / 9_007_199_254_740_992.0);
///
/// // A chance of 1 draws all the same.
/// let certain = unit.bool(1.0)?;
/// assert_eq!((certain.value, certain.used), (true, 1));
/// assert_eq!(unit.bool(f64::NAN), Err(Refusal::Chance));
///
/// let double = unit.clone().double();
/// assert_eq!(unit.uniform(-2.0, 6.0)?, -2.0 + 8.0 * double);
/// assert_eq!(unit.uniform(f64::MIN, f64::MAX), Err(Refusal::NotFinite));
/// # Ok::<(), Refusal>(())
/// ```
impl Random {
    /// A number from 0 up to, but not including, 1, of 24 bits: (word >> 8) / 2^24.
    #[inline]
    pub fn float(&mut self) -> f32 {
        exports::vrd_float_in(&mut self.state, &mut self.table).value
    }

    /// A number from 0 up to, but not including, 1, of 53 bits: (64-bit word >> 11) / 2^53.
    #[inline]
    pub fn double(&mut self) -> f64 {
        exports::vrd_double_in(&mut self.state, &mut self.table).value
    }

    /// True with this chance: draws a double and asks whether it is below.
    ///
    /// Refused where the chance is NaN, below 0 or above 1 ([`Refusal::Chance`]).
    #[inline]
    pub fn bool(&mut self, chance: f64) -> Result<Drawn<bool>, Refusal> {
        small(exports::vrd_bool_in(&mut self.state, &mut self.table, chance))
    }

    /// A number of the interval: low + (high - low) * double, each operation rounded once. It may equal `high`.
    ///
    /// Refused where an end is NaN or infinite ([`Refusal::NotFinite`]), then where low is not below high ([`Refusal::Order`]), then
    /// where high - low overflows ([`Refusal::NotFinite`]).
    #[inline]
    pub fn uniform(&mut self, low: f64, high: f64) -> Result<f64, Refusal> {
        let drawn = exports::vrd_uniform_in(&mut self.state, &mut self.table, low, high);
        Refusal::or(drawn.refusal, drawn.value)
    }
}
