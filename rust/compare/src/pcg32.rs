//! Pcg32: three makers, both words, loops and states set by hand (even increments too).

use crate::seeds;
use crate::subject::{Step, Subject, Words};
use crate::tally::Tally;
use vrd_original::pcg::Pcg32 as Original;
use vrd_original::rand_core::SeedableRng;

type Port = port::Pcg32;

const SUBJECT: Subject<Original, Port> = Subject {
    name: "Pcg32",
    state,
    steps: &[
        Step {
            name: "pcg32_next_u32",
            original: |g| g.next_u32().into(),
            port: |g| {
                let drawn = port::pcg32_next_u32(*g);
                *g = drawn.next;
                drawn.word.into()
            },
        },
        Step {
            name: "pcg32_next_u64",
            original: Original::next_u64,
            port: |g| {
                let drawn = port::pcg32_next_u64(*g);
                *g = drawn.next;
                drawn.word
            },
        },
    ],
    words: &[Words {
        name: "pcg32_words",
        original: |g| g.next_u32().into(),
        port: |g, n| {
            let drawn = port::pcg32_words(*g, n);
            *g = drawn.next;
            drawn.word.into()
        },
    }],
};

pub fn compare(tally: &mut Tally) {
    let numbers = seeds::long();
    SUBJECT.maker(tally, "pcg32_from_u64_seed", &numbers, Original::from_u64_seed, |n| port::pcg32_from_u64_seed(n));
    let pairs = seeds::pairs(&numbers);
    let original = |(seed, stream)| Original::from_seed_stream(seed, stream);
    SUBJECT.maker(tally, "pcg32_from_seed_stream", &pairs, original, |(a, b)| port::pcg32_from_seed_stream(a, b));
    let bytes = seeds::bytes::<16>();
    SUBJECT.maker(tally, "pcg32_from_seed", &bytes, Original::from_seed, |seed| port::pcg32_from_seed(&seed));
    SUBJECT.hand_set(tally, &hand_set_states());
    SUBJECT.long_runs(tally, &starts());
}

/// The original's state as the port's struct.
fn state(g: &Original) -> Port {
    let (state, inc) = g.parts();
    Port { state, inc }
}

/// Edges of the state with edges of the increment, odd and even.
fn hand_set_states() -> Vec<Original> {
    let states = [0, 1, 2, 1 << 27, 1 << 32, 1 << 59, 1 << 63, u64::MAX];
    let incs = [0, 1, 2, 3, 108, 109, 1 << 63, u64::MAX - 1, u64::MAX];
    states.iter().flat_map(|&state| incs.map(|inc| Original::from_parts(state, inc))).collect()
}

/// Where the long runs begin.
fn starts() -> Vec<Original> {
    vec![
        Original::from_u64_seed(0),
        Original::from_u64_seed(42),
        Original::from_seed_stream(42, 54),
        Original::from_seed_stream(u64::MAX, u64::MAX),
        Original::from_seed([7; 16]),
        Original::from_parts(0, 1),
        Original::from_parts(1, 2),
        Original::from_parts(u64::MAX, 0),
    ]
}
