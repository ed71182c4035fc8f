//! The loop that cannot end: every word of the all-zero Xoshiro256++ is 0, which no draw below 3 takes. The original would loop for ever;
//! the port comes back when the budget is used up.

use std::time::Instant;
use vrd::{Parts, Random, Refusal};

/// A line that says how long the port took to refuse with the largest budget.
pub fn line() -> Result<String, String> {
    let mut unit = Random::from_parts(Parts::Xoshiro256PlusPlus([0; 4]));
    let before = unit.clone();
    let start = Instant::now();
    let answer = unit.bounded(3, u32::MAX);
    let seconds = start.elapsed().as_secs_f64();
    if answer != Err(Refusal::Budget) || unit != before {
        return Err(format!("the draw without a good word answers {answer:?}, and not a refusal that leaves its generator"));
    }
    Ok(format!("below 3 from the all-zero Xoshiro256PlusPlus, budget 2^32 - 1: refused with 8 after {seconds:.1} s"))
}
