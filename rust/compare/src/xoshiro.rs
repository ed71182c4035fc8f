//! Xoshiro256++: both makers, both words, jump, loops and states set by hand.

use crate::seeds;
use crate::subject::{Step, Subject, Words};
use crate::tally::Tally;
use vrd_original::xoshiro::Xoshiro256PlusPlus as Original;

type Port = port::Xoshiro256PlusPlus;

const SUBJECT: Subject<Original, Port> = Subject {
    name: "Xoshiro256PlusPlus",
    state,
    steps: &[
        Step {
            name: "xoshiro_next_u64",
            original: Original::next_u64,
            port: |g| {
                let drawn = port::xoshiro_next_u64(*g);
                *g = drawn.next;
                drawn.word
            },
        },
        Step {
            name: "xoshiro_next_u32",
            original: |g| g.next_u32().into(),
            port: |g| {
                let drawn = port::xoshiro_next_u32(*g);
                *g = drawn.next;
                drawn.word.into()
            },
        },
    ],
    words: &[Words {
        name: "xoshiro_words",
        original: Original::next_u64,
        port: |g, n| {
            let drawn = port::xoshiro_words(*g, n);
            *g = drawn.next;
            drawn.word
        },
    }],
};

pub fn compare(tally: &mut Tally) {
    let numbers = seeds::long();
    SUBJECT.maker(tally, "xoshiro_from_u64_seed", &numbers, Original::from_u64_seed, |n| port::xoshiro_from_u64_seed(n));
    let bytes = seeds::bytes::<32>();
    SUBJECT.maker(tally, "xoshiro_from_seed", &bytes, Original::from_seed, |seed| port::xoshiro_from_seed(&seed));
    let states = hand_set_states();
    jump(tally, &states, &numbers);
    SUBJECT.hand_set(tally, &states);
    SUBJECT.long_runs(tally, &starts());
}

/// The original's state as the port's struct.
fn state(g: &Original) -> Port {
    let [s0, s1, s2, s3] = g.parts();
    Port { s0, s1, s2, s3 }
}

/// Jumps from each state and each seed; from the first also jumps of jumps.
fn jump(tally: &mut Tally, states: &[Original], numbers: &[u64]) {
    tally.row(SUBJECT.name, "xoshiro_jump", |row| {
        let seeded = numbers.iter().map(|&seed| Original::from_u64_seed(seed));
        for mut original in states.iter().copied().chain(seeded) {
            let mut port = state(&original);
            for times in 1..=2 {
                original.jump();
                port = port::xoshiro_jump(port);
                row.case(state(&original), port, || format!("the state after jump {times}"));
            }
        }
    });
}

/// All zeros, all ones, small numbers, and each single bit.
fn hand_set_states() -> Vec<Original> {
    let mut states = vec![[0; 4], [u64::MAX; 4], [1, 2, 3, 4], [0, 0, 0, 1], [u64::MAX, 0, u64::MAX, 0]];
    states.extend((0..256).map(|bit| {
        let mut state = [0; 4];
        state[bit / 64] = 1 << (bit % 64);
        state
    }));
    states.into_iter().map(Original::from_parts).collect()
}

/// Where the long runs begin.
fn starts() -> Vec<Original> {
    let mut starts: Vec<_> = [0, 1, 42, u64::MAX].map(Original::from_u64_seed).into();
    starts.push(Original::from_seed([7; 32]));
    starts.push(Original::from_parts([1, 2, 3, 4]));
    starts.push(Original::from_parts([0, 0, 0, 1]));
    starts.push(Original::from_parts([u64::MAX; 4]));
    starts
}
