//! A unit on a jetty draws which of 40 inlets opens next, and where three blanks go among ten bottles; each draw has a budget of
//! words, so that it stops before the battery does. `cargo run --release -p vrd --example jetty -- SEED`
//!
//! Without a seed it is 42.

use std::error::Error;
use vrd::{Drawn, Random, Refusal};

/// The most words that one draw may look at.
const BUDGET: u32 = 100;

fn main() -> Result<(), Box<dyn Error>> {
    let seed = std::env::args().nth(1).map_or(Ok(42), |text| text.parse())?;
    let mut unit = Random::from_u64_seed(seed);
    for opening in 1..=5 {
        let Drawn { value: inlet, used } = unit.bounded(40, BUDGET)?;
        println!("opening {opening}: inlet {inlet} ({used} word)");
    }
    let mut bottles: Vec<u32> = (1..=10).collect();
    let used = unit.shuffle(&mut bottles, BUDGET)?.used;
    println!("blanks: bottles {:?} ({used} words)", &bottles[..3]);

    // Nine draws need nine words at least: with eight the unit says no, and nothing has moved.
    let (before, order) = (unit.clone(), bottles.clone());
    let refusal = unit.shuffle(&mut bottles, 8);
    println!("with 8 words: {}", refusal.expect_err("nine draws need nine words"));
    assert_eq!(refusal, Err(Refusal::Budget));
    assert!(unit == before && bottles == order);
    Ok(())
}
