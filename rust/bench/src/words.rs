//! Words in a row: the original's own loop over each generator, and the loop that the port exports.

use crate::timing::{timed, Case, Limit, Run};
use port::{MersenneTwister, Wide};
use vrd_original::pcg::{Pcg32, Pcg64};
use vrd_original::xoshiro::Xoshiro256PlusPlus;

const WHAT: &str = "word, loop";

/// The generators' own words: 64 bits of kinds 0 and 3, 32 bits of kinds 1 and 2; and the twister by value, which copies its table in and
/// out at each word and so gets fewer of them.
pub fn cases(seed: u64, words: u64) -> Vec<Case> {
    let case = |what, kind, count, limit, original: fn(u64, u64) -> Run, port: fn(u64, u64) -> Run| Case {
        what,
        kind,
        count,
        unit: "word",
        limit,
        original: Box::new(move || original(seed, count)),
        port: Box::new(move || port(seed, count)),
    };
    let in_loop = |kind, original, port| case(WHAT, kind, words, Limit::Times(1.25), original, port);
    let by_value = Limit::Nanoseconds(200.0);
    vec![
        in_loop("Xoshiro256PlusPlus", xoshiro, port_xoshiro),
        in_loop("MersenneTwister", twister, port_twister),
        in_loop("Pcg32", pcg32, port_pcg32),
        in_loop("Pcg64", pcg64, port_pcg64),
        case("word, loop by value", "MersenneTwister", words / 10, by_value, twister, port_twister_by_value),
    ]
}

/// The XOR of n words.
#[inline(never)]
fn xor<G>(g: &mut G, n: u64, next: impl Fn(&mut G) -> u64) -> u64 {
    (0..n).fold(0, |xor, _| xor ^ next(g))
}

/// The parts, and then the word.
fn with(word: u64, mut parts: Vec<u64>) -> Vec<u64> {
    parts.push(word);
    parts
}

pub fn xoshiro(seed: u64, n: u64) -> Run {
    timed(Xoshiro256PlusPlus::from_u64_seed(seed), |g| xor(g, n, Xoshiro256PlusPlus::next_u64), |word, g| with(word, g.parts().into()))
}

fn port_xoshiro(seed: u64, n: u64) -> Run {
    timed(
        port::xoshiro_from_u64_seed(seed),
        |g| port::xoshiro_words(*g, n),
        |d, _| with(d.word, vec![d.next.s0, d.next.s1, d.next.s2, d.next.s3]),
    )
}

pub fn pcg32(seed: u64, n: u64) -> Run {
    timed(Pcg32::from_u64_seed(seed), |g| xor(g, n, |g| g.next_u32().into()), |word, g| with(word, <[u64; 2]>::from(g.parts()).into()))
}

fn port_pcg32(seed: u64, n: u64) -> Run {
    timed(port::pcg32_from_u64_seed(seed), |g| port::pcg32_words(*g, n), |d, _| with(d.word.into(), vec![d.next.state, d.next.inc]))
}

pub fn pcg64(seed: u64, n: u64) -> Run {
    timed(
        Pcg64::from_u128_seed(seed.into()),
        |g| xor(g, n, Pcg64::next_u64),
        |word, g| {
            let (state, inc) = g.parts();
            with(word, [state, inc].into_iter().map(Wide::from).flat_map(|w| [w.high, w.low]).collect())
        },
    )
}

fn port_pcg64(seed: u64, n: u64) -> Run {
    timed(
        port::pcg64_from_u128_seed(u128::from(seed).into()),
        |g| port::pcg64_words(*g, n),
        |d, _| with(d.word, [d.next.state, d.next.inc].into_iter().flat_map(|w| [w.high, w.low]).collect()),
    )
}

pub fn twister(seed: u64, n: u64) -> Run {
    let mut generator = vrd_original::MersenneTwister::new();
    generator.seed(seed as u32);
    timed(
        generator,
        |g| xor(g, n, |g| g.rand().into()),
        |word, g| with(word, g.mt.iter().map(|&entry| entry.into()).chain([g.mti as u64]).collect()),
    )
}

fn twister_parts(word: u32, g: &MersenneTwister) -> Vec<u64> {
    with(word.into(), g.mt.iter().chain([&g.mti]).map(|&part| part.into()).collect())
}

/// The caller keeps the table and lends it.
fn port_twister(seed: u64, n: u64) -> Run {
    let mut mt = [0; 624];
    let mti = port::mt_seed(&mut mt, seed as u32);
    timed(
        MersenneTwister { mt, mti },
        |g| {
            let placed = port::mt_words(&mut g.mt, g.mti, n);
            g.mti = placed.mti;
            placed.word
        },
        twister_parts,
    )
}

/// Each word through the call that takes the whole generator and hands it back.
fn port_twister_by_value(seed: u64, n: u64) -> Run {
    timed(port::mt_value_seed(seed as u32), |g| port::mt_value_words(g.clone(), n), |d, _| twister_parts(d.word, &d.next))
}
