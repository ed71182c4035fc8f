//! The port as the Rattle crates `bench_ffi` (the four generators), `bench_lent` and `bench_values` (loops over the facade: lent, and by
//! value) and `vrd_ffi` (the facade) export it.
//!
//! The exports are proved total: they ask nothing of a caller beyond the types of their arguments. That
//! is why they are declared as safe functions, but for those that take a slice by its address.

mod exports;

pub use exports::*;
pub use vrd::exports::*;
