//! The four kinds on both sides, made from one seed, and their parts as plain numbers.

use port::{State, Table};
use vrd_original::RngBackend;

/// The names of the kinds 0 to 3.
pub const NAMES: [&str; 4] = ["Xoshiro256PlusPlus", "MersenneTwister", "Pcg32", "Pcg64"];

/// The original's generator of this kind.
pub fn original(kind: usize, seed: u64) -> vrd_original::Random {
    match kind {
        0 => vrd_original::Random::from_u64_seed(seed),
        1 => vrd_original::Random::new_mersenne_twister_with_seed(seed as u32),
        2 => vrd_original::Random::new_pcg32_with_seed(seed),
        _ => vrd_original::Random::new_pcg64_with_seed(seed.into()),
    }
}

/// The port's, as a Rust program has it.
pub fn port(kind: usize, seed: u64) -> vrd::Random {
    match kind {
        0 => vrd::Random::from_u64_seed(seed),
        1 => vrd::Random::new_mersenne_twister_with_seed(seed as u32),
        2 => vrd::Random::new_pcg32_with_seed(seed),
        _ => vrd::Random::new_pcg64_with_seed(seed.into()),
    }
}

/// The port's, as the exports take it.
pub fn lent(kind: usize, seed: u64) -> (State, Table) {
    let (mut state, mut table) = ([0; 6], [0; 624]);
    match kind {
        0 => port::vrd_xoshiro_with_seed_in(&mut state, seed),
        1 => port::vrd_mersenne_twister_with_seed_in(&mut state, &mut table, seed as u32),
        2 => port::vrd_pcg32_with_seed_in(&mut state, seed),
        _ => port::vrd_pcg64_with_seed_in(&mut state, u128::from(seed).into()),
    }
    (state, table)
}

fn twister(table: &Table, mti: u64) -> Vec<u64> {
    table.iter().map(|&entry| entry.into()).chain([mti]).collect()
}

fn halves(parts: [u128; 2]) -> Vec<u64> {
    parts.iter().flat_map(|part| [(part >> 64) as u64, *part as u64]).collect()
}

/// The parts of the original's generator.
pub fn original_parts(g: &vrd_original::Random) -> Vec<u64> {
    match g.backend() {
        RngBackend::Xoshiro256PlusPlus(x) => x.parts().into(),
        RngBackend::MersenneTwister(t) => twister(&t.mt, t.mti as u64),
        RngBackend::Pcg32(p) => <[u64; 2]>::from(p.parts()).into(),
        RngBackend::Pcg64(p) => halves(p.parts().into()),
        _ => unreachable!("the original is built with four kinds"),
    }
}

/// The same parts of the port's.
pub fn port_parts(g: &vrd::Random) -> Vec<u64> {
    match g.parts() {
        vrd::Parts::Xoshiro256PlusPlus(words) => words.into(),
        vrd::Parts::MersenneTwister { table, mti } => twister(table, mti.into()),
        vrd::Parts::Pcg32 { state, inc } => vec![state, inc],
        vrd::Parts::Pcg64 { state, inc } => halves([state, inc]),
    }
}

/// The same parts as the exports have them.
pub fn lent_parts((state, table): &(State, Table)) -> Vec<u64> {
    let [kind, mti, words @ ..] = state;
    match kind {
        1 => twister(table, *mti),
        2 => words[..2].into(),
        _ => words[..].into(),
    }
}
