//! The original Rust crate `vrd`, as the judge of every comparison.
//!
//! The modules are the unchanged text of the original's files, found and checked by build/main.rs, each
//! followed by the lines of extra/ (`from_backend`, `from_parts`, `parts`). This root stands for the
//! original's lib.rs: the same features (`std`, `alloc`, `pcg`; not `simd`, `crypto`, `serde`), the same
//! names at the root as far as those files need them, and an empty ziggurat.
#![no_std]

extern crate alloc;
extern crate std;

include!(concat!(env!("OUT_DIR"), "/modules.rs"));
mod ziggurat;

pub use rand::rand_core;
pub use random::{FloatExt, MersenneTwister, Random, RngBackend};
