//! Generators that others have written, timed in the port's place in the same run: std::mt19937, pcg32 and pcg64 of pcg-cpp, and those of
//! the crates rand_xoshiro and rand_pcg, as far as the build script found them. Their words are compared with the original's.

#[cfg(peer_rand)]
#[path = "rand_peers.rs"]
mod rand_peers;

use crate::timing::{timed, Case, Limit, Run};

/// A peer: its name, its kind, the original's loop, and the peer's: the XOR of n words from a seed.
type Peer = (&'static str, &'static str, fn(u64, u64) -> Run, fn(u64, u64) -> u64);

#[cfg(peer_mt19937)]
unsafe extern "C" {
    safe fn peer_mt19937(seed: u64, n: u64) -> u64;
}

#[cfg(peer_pcg)]
unsafe extern "C" {
    safe fn peer_pcg32(seed: u64, n: u64) -> u64;
    safe fn peer_pcg64(seed: u64, n: u64) -> u64;
}

/// What the build script says of them.
pub const NOTE: &str = env!("BENCH_PEERS");

const PEERS: &[Peer] = &[
    #[cfg(peer_rand)]
    ("word, loop: peer rand_xoshiro", "Xoshiro256PlusPlus", crate::words::xoshiro, rand_peers::xoshiro),
    #[cfg(peer_mt19937)]
    ("word, loop: peer std::mt19937", "MersenneTwister", crate::words::twister, |seed, n| peer_mt19937(seed, n)),
    #[cfg(peer_pcg)]
    ("word, loop: peer pcg32 of pcg-cpp", "Pcg32", crate::words::pcg32, |seed, n| peer_pcg32(seed, n)),
    #[cfg(peer_rand)]
    ("word, loop: peer rand_pcg", "Pcg32", crate::words::pcg32, rand_peers::pcg32),
    #[cfg(peer_pcg)]
    ("word, loop: peer pcg64 of pcg-cpp", "Pcg64", crate::words::pcg64, |seed, n| peer_pcg64(seed, n)),
    #[cfg(peer_rand)]
    ("word, loop: peer rand_pcg", "Pcg64", crate::words::pcg64, rand_peers::pcg64),
];

/// A peer tells the word alone, not its state; its seeding is timed with its words, of which there are many.
pub fn cases(seed: u64, words: u64) -> Vec<Case> {
    let case = |&(what, kind, original, peer): &Peer| Case {
        what,
        kind,
        count: words,
        unit: "word",
        limit: Limit::Peer,
        original: Box::new(move || {
            let Run { mut answer, seconds } = original(seed, words);
            Run { answer: answer.split_off(answer.len() - 1), seconds }
        }),
        port: Box::new(move || timed(seed, |seed| peer(*seed, words), |word, _| vec![word])),
    };
    PEERS.iter().map(case).collect()
}
