//! Pcg64: three makers, both words, loops and states set by hand (even increments too).

use crate::seeds;
use crate::subject::{Step, Subject, Words};
use crate::tally::Tally;
use vrd_original::pcg::Pcg64 as Original;
use vrd_original::rand_core::SeedableRng;

type Port = port::Pcg64;

const SUBJECT: Subject<Original, Port> = Subject {
    name: "Pcg64",
    state,
    steps: &[
        Step {
            name: "pcg64_next_u64",
            original: Original::next_u64,
            port: |g| {
                let drawn = port::pcg64_next_u64(*g);
                *g = drawn.next;
                drawn.word
            },
        },
        Step {
            name: "pcg64_next_u32",
            original: |g| g.next_u32().into(),
            port: |g| {
                let drawn = port::pcg64_next_u32(*g);
                *g = drawn.next;
                drawn.word.into()
            },
        },
    ],
    words: &[Words {
        name: "pcg64_words",
        original: Original::next_u64,
        port: |g, n| {
            let drawn = port::pcg64_words(*g, n);
            *g = drawn.next;
            drawn.word
        },
    }],
};

pub fn compare(tally: &mut Tally) {
    let numbers = seeds::wide();
    let port = |seed: u128| port::pcg64_from_u128_seed(seed.into());
    SUBJECT.maker(tally, "pcg64_from_u128_seed", &numbers, Original::from_u128_seed, port);
    let pairs = seeds::pairs(&numbers);
    let original = |(seed, stream)| Original::from_seed_stream(seed, stream);
    let port = |(seed, stream): (u128, u128)| port::pcg64_from_seed_stream(seed.into(), stream.into());
    SUBJECT.maker(tally, "pcg64_from_seed_stream", &pairs, original, port);
    let bytes = seeds::bytes::<32>();
    SUBJECT.maker(tally, "pcg64_from_seed", &bytes, Original::from_seed, |seed| port::pcg64_from_seed(&seed));
    SUBJECT.hand_set(tally, &hand_set_states());
    SUBJECT.long_runs(tally, &starts());
}

/// The original's state as the port's struct.
fn state(g: &Original) -> Port {
    let (state, inc) = g.parts();
    Port { state: state.into(), inc: inc.into() }
}

/// Edges of the state with edges of the increment, odd and even, in either half.
fn hand_set_states() -> Vec<Original> {
    let low = u128::from(u64::MAX);
    let states = [0, 1, 2, 1 << 63, 1 << 64, 1 << 122, 1 << 127, low, !low, u128::MAX];
    let incs = [0, 1, 2, 3, 1 << 63, low, 1 << 64, !low, 1 << 127, u128::MAX - 1, u128::MAX];
    states.iter().flat_map(|&state| incs.map(|inc| Original::from_parts(state, inc))).collect()
}

/// Where the long runs begin.
fn starts() -> Vec<Original> {
    vec![
        Original::from_u128_seed(0),
        Original::from_u128_seed(42),
        Original::from_seed_stream(42, 54),
        Original::from_seed_stream(u128::MAX, u128::MAX),
        Original::from_seed([7; 32]),
        Original::from_parts(0, 1),
        Original::from_parts(1, 2),
        Original::from_parts(u128::MAX, 0),
    ]
}
