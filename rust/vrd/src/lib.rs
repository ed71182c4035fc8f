//! Random draws that are exact, that stop, and that are proved.
//!
//! The crate has the names of the Rust crate `vrd` (repository sebastienrousseau/vrd) and the words that it draws, bit for bit.
//! Behind the names stands the archive of a library in Rattle, in which every function is proved to meet its contract.
//! [`Random`] is one of four generators: Xoshiro256++ (kind 0), the Mersenne Twister MT19937 (kind 1), Pcg32 (kind 2) and
//! Pcg64 (kind 3). It is a plain value, nothing is boxed, and the crate needs no `std`. A call lends it to the library, which changes it
//! where it stands: nothing is copied.
//!
//! Two things are different from the original:
//!
//! - A draw that may have to reject words takes a **budget**, the most words it may look at, as its last argument. Within it
//!   the exact answer comes out, as [`Drawn`]: the value and the words used. Beyond it the call refuses with
//!   [`Refusal::Budget`], and the generator has not moved.
//! - Where the original panics, a call answers a [`Refusal`]; then generator and lists are as they came.
//!
//! ```
//! use vrd::{Random, Refusal};
//!
//! // Which of 40 inlets opens next, with at most 100 words.
//! let mut unit = Random::from_u64_seed(42);
//! let word = unit.clone().rand();
//! let inlet = unit.bounded(40, 100)?;
//! assert_eq!(u64::from(inlet.value), u64::from(word) * 40 >> 32);
//! assert_eq!(inlet.used, 1);
//!
//! // No budget, no draw: the generator is where it was.
//! let before = unit.clone();
//! assert_eq!(unit.bounded(40, 0), Err(Refusal::Budget));
//! assert!(unit == before);
//! # Ok::<(), Refusal>(())
//! ```
#![no_std]
#![warn(missing_docs)]
#![deny(unsafe_code)]

mod answers;
mod draws;
#[doc(hidden)]
#[allow(unsafe_code, missing_docs)]
pub mod exports;
mod floats;
mod lists;
mod making;
mod random;
mod refusal;
mod state;
mod words;

pub use answers::{Bottle, Drawn};
pub use lists::list_limit;
pub use random::{Parts, Random};
pub use refusal::Refusal;
