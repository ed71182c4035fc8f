//! A stand-in for the crate `rand` 0.10, so that the original builds with no package registry at hand.
//!
//! It has the two traits that the original implements and the one function that it calls. The traits
//! carry no behaviour: all that the original does through them is its own code. Seeding from the
//! operating system is not part of the port, so `random` says so and stops.
#![no_std]

/// The part of `rand_core` that the original names.
pub mod rand_core {
    /// A source of words that may fail; each of the original's generators is one.
    pub trait TryRng {
        /// What a failed draw tells (the original's generators never fail).
        type Error;

        /// The next 32-bit word.
        fn try_next_u32(&mut self) -> Result<u32, Self::Error>;

        /// The next 64-bit word.
        fn try_next_u64(&mut self) -> Result<u64, Self::Error>;

        /// Fills the whole of `dest`.
        fn try_fill_bytes(&mut self, dest: &mut [u8]) -> Result<(), Self::Error>;
    }

    /// A generator that is made from an array of bytes.
    pub trait SeedableRng: Sized {
        /// The array's type.
        type Seed;

        /// The generator with this seed.
        fn from_seed(seed: Self::Seed) -> Self;
    }
}

/// Where the original asks the operating system for a seed. Left out: it never returns.
pub fn random<T>() -> T {
    unimplemented!("seeding from the operating system is left out of this build of the original")
}
