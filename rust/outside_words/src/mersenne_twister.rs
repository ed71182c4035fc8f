//! Words of the original's MersenneTwister, as decimal numbers.

use crate::line;
use vrd_original::MersenneTwister;

/// Lines from seeds, bytes, and tables and positions set by hand.
pub fn print() {
    for seed in [0, 1, 42, 5489, u32::MAX] {
        sample(&format!("mt.seed-{seed}"), seeded(seed));
    }
    line("mt.10000th-of-5489", [nth(seeded(5489), 10_000)]);
    let mut unseeded_mark = seeded(1);
    unseeded_mark.set_mti(625);
    sample("mt.seed-1-position-625", unseeded_mark);
    sample("mt.constant-bytes", MersenneTwister::from_seed([7; 32]));
    for position in [0, 300, 623, 624, 1000] {
        sample(&format!("mt.table-42-position-{position}"), MersenneTwister { mt: seeded(42).mt, mti: position });
    }
    sample("mt.zeros", MersenneTwister { mt: [0; 624], mti: 624 });
    let mut halves = seeded(5489);
    line("mt.u64-5489", (0..10).map(|_| halves.next_u64()));
}

/// The lines from the table that init_by_array makes.
pub fn print_by_array(path: &str) -> Result<(), String> {
    let text = std::fs::read_to_string(path).map_err(|e| format!("{path}: {e}"))?;
    let table = text.lines().find_map(|line| line.strip_prefix("python.mt.table "));
    let table = table.ok_or(format!("{path} has no line python.mt.table"))?;
    let words: Result<Vec<u32>, _> = table.split(' ').map(str::parse).collect();
    let words = words.map_err(|e| format!("{path}: {e}"))?;
    let mt = words.try_into().map_err(|words: Vec<u32>| format!("{path}: {} words, expected 624", words.len()))?;
    let mut g = MersenneTwister { mt, mti: 624 };
    let words: Vec<u32> = (0..1000).map(|_| g.rand()).collect();
    line("mt.by-array-first-5", &words[..5]);
    line("mt.by-array", &words);
    Ok(())
}

/// Words 1 to 10, the 1000th and the 10000th.
fn sample(name: &str, g: MersenneTwister) {
    let mut first = g.clone();
    let words = (0..10).map(|_| first.rand()).chain([nth(g.clone(), 1_000), nth(g, 10_000)]);
    line(name, words);
}

fn nth(mut g: MersenneTwister, n: usize) -> u32 {
    for _ in 1..n {
        g.rand();
    }
    g.rand()
}

fn seeded(seed: u32) -> MersenneTwister {
    let mut g = MersenneTwister::new();
    g.seed(seed);
    g
}
