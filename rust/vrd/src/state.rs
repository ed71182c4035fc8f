//! The state: seeded anew, split, and the twister's position and twist.

use crate::{exports, Random, Refusal};

/// # State
///
/// ```
/// use vrd::{Random, Refusal};
///
/// // The kind is kept, a custom stream is not.
/// let mut unit = Random::new_pcg32_with_stream(1, 2);
/// unit.seed(7);
/// assert!(unit == Random::new_pcg32_with_seed(7));
///
/// // A child has the old state; the parent jumps. The other kinds have no child.
/// let mut parent = Random::from_u64_seed(7);
/// let child = parent.split()?;
/// assert!(child == Random::from_u64_seed(7));
/// assert!(parent != child);
/// assert_eq!(unit.split(), Err(Refusal::NoSplit));
///
/// // A position above 624 is stored as 624: the next word twists first.
/// let mut twister = Random::new_mersenne_twister_with_seed(7);
/// assert_eq!(twister.mti(), 624);
/// twister.twist();
/// assert_eq!(twister.mti(), 0);
/// twister.set_mti(1_000);
/// assert_eq!(twister.mti(), 624);
/// # Ok::<(), Refusal>(())
/// ```
impl Random {
    /// Seeds the generator anew. The kind is kept, the seed widened to what the kind takes; the PCGs go to their default stream.
    #[inline]
    pub fn seed(&mut self, seed: u32) {
        exports::vrd_seed_in(&mut self.state, &mut self.table, seed);
    }

    /// A second generator, of Xoshiro256++ alone: the child has the old state, and this one jumps (2^128 steps, say its
    /// authors).
    ///
    /// Refused on the other kinds ([`Refusal::NoSplit`]).
    #[inline]
    pub fn split(&mut self) -> Result<Self, Refusal> {
        let mut child = Self::BLANK;
        Refusal::or(exports::vrd_split_in(&mut self.state, &mut child.state), child)
    }

    /// The twister's position; 0 on the other kinds.
    #[inline]
    pub fn mti(&self) -> u32 {
        exports::vrd_mti_in(&self.state).value as u32
    }

    /// Sets the twister's position, at most to 624; nothing on the other kinds.
    #[inline]
    pub fn set_mti(&mut self, value: u32) {
        exports::vrd_set_mti_in(&mut self.state, value);
    }

    /// Renews the twister's table and sets its position to 0; nothing on the other kinds.
    #[inline]
    pub fn twist(&mut self) {
        exports::vrd_twist_in(&mut self.state, &mut self.table);
    }
}
