//! The Mersenne Twister in both forms, lent and by value: makers, words, twist, set_mti, loops and every position's edge.

use crate::seeds;
use crate::subject::{Step, Subject, Words};
use crate::tally::Tally;
use port::Table;
use simple::Simple;
use vrd_original::MersenneTwister as Original;

type Port = port::MersenneTwister;

/// The positions where something changes, and some far outside the table.
const POSITIONS: [u32; 12] = [0, 1, 2, 226, 227, 228, 622, 623, 624, 625, 1_000, u32::MAX];

/// The ordered departure: the port stores at most this.
const HIGHEST_STORED: usize = 624;

const LENT: Subject<Original, Port> = Subject {
    name: "MersenneTwister",
    state,
    steps: &[
        Step {
            name: "mt_rand",
            original: |g| g.rand().into(),
            port: |g| {
                let placed = port::mt_rand(&mut g.mt, g.mti);
                g.mti = placed.mti;
                placed.word.into()
            },
        },
        Step {
            name: "mt_next_u64",
            original: Original::next_u64,
            port: |g| {
                let placed = port::mt_next_u64(&mut g.mt, g.mti);
                g.mti = placed.mti;
                placed.word
            },
        },
        Step {
            name: "mt_value_rand",
            original: |g| g.rand().into(),
            port: |g| {
                let drawn = port::mt_value_rand(g.clone());
                *g = drawn.next;
                drawn.word.into()
            },
        },
    ],
    words: &[
        Words {
            name: "mt_words",
            original: |g| g.rand().into(),
            port: |g, n| {
                let placed = port::mt_words(&mut g.mt, g.mti, n);
                g.mti = placed.mti;
                placed.word.into()
            },
        },
        Words {
            name: "mt_value_words",
            original: |g| g.rand().into(),
            port: |g, n| {
                let drawn = port::mt_value_words(g.clone(), n);
                *g = drawn.next;
                drawn.word.into()
            },
        },
    ],
};

pub fn compare(tally: &mut Tally) {
    let numbers = seeds::short();
    LENT.maker(tally, "mt_seed", &numbers, seeded, |seed| into_used_table(|table| port::mt_seed(table, seed)));
    LENT.maker(tally, "mt_value_seed", &numbers, seeded, |seed| port::mt_value_seed(seed));
    let port = |seed| into_used_table(|table| port::mt_from_seed(table, &seed));
    LENT.maker(tally, "mt_from_seed", &seeds::bytes::<32>(), Original::from_seed, port);
    twist(tally);
    set_mti(tally);
    LENT.hand_set(tally, &hand_set_states());
    LENT.long_runs(tally, &starts());
}

/// The original's state as the port's struct. No position here is above 32 bits.
fn state(g: &Original) -> Port {
    Port { mt: g.mt, mti: u32::try_from(g.mti).expect("positions are set to 32-bit numbers only") }
}

/// The original with this seed.
fn seeded(seed: u32) -> Original {
    let mut g = Original::new();
    g.seed(seed);
    g
}

/// The original with this table and position.
fn with_parts(mt: Table, mti: u32) -> Original {
    Original { mt, mti: mti as usize }
}

/// A generator made in a table that held something else before.
fn into_used_table(make: impl FnOnce(&mut Table) -> u32) -> Port {
    let mut mt = [0xDEAD_BEEF; 624];
    let mti = make(&mut mt);
    Port { mt, mti }
}

/// Tables: zeros, ones, each of the two parts of an entry alone, and random ones.
fn tables() -> Vec<Table> {
    let mut tables = vec![[0; 624], [u32::MAX; 624], [0x8000_0000; 624], [0x7FFF_FFFF; 624], [1; 624]];
    let mut only_first = [0; 624];
    only_first[0] = 0x8000_0000;
    let mut only_last = [0; 624];
    only_last[623] = 1;
    tables.extend([only_first, only_last, seeded(5489).mt]);
    let mut simple = Simple::new(624);
    tables.extend([(); 4].map(|()| [0; 624].map(|_: u32| simple.long() as u32)));
    tables
}

/// Every table at every position.
fn hand_set_states() -> Vec<Original> {
    tables().into_iter().flat_map(|mt| POSITIONS.map(|mti| with_parts(mt, mti))).collect()
}

/// Twists from every table and position, three in a row, with a word between them.
fn twist(tally: &mut Tally) {
    tally.row(LENT.name, "mt_twist", |row| {
        for mut original in hand_set_states() {
            let mut port = state(&original);
            for times in 1..=3 {
                original.twist();
                port.mti = port::mt_twist(&mut port.mt);
                row.case(state(&original), port.clone(), || format!("the state after twist {times}"));
                let placed = port::mt_rand(&mut port.mt, port.mti);
                port.mti = placed.mti;
                row.case(original.rand(), placed.word, || format!("the word after twist {times}"));
            }
        }
    });
}

/// set_mti: the position stored is the original's, but at most 624; the words after it are the same.
fn set_mti(tally: &mut Tally) {
    tally.row(LENT.name, "mt_set_mti (position as min(p, 624), then words)", |row| {
        for mt in tables() {
            for value in POSITIONS {
                let mut original = with_parts(mt, 5);
                original.set_mti(value as usize);
                let mut port = Port { mt, mti: port::mt_set_mti(value) };
                row.case(original.mti().min(HIGHEST_STORED), port.mti as usize, || format!("set_mti({value})"));
                for k in 0..1_300 {
                    let placed = port::mt_rand(&mut port.mt, port.mti);
                    port.mti = placed.mti;
                    row.case(original.rand(), placed.word, || format!("word {k} after set_mti({value})"));
                }
                row.case(state(&original), port, || format!("the state after set_mti({value}) and words"));
                row.drew(1_300);
            }
        }
    });
}

/// Where the long runs begin.
fn starts() -> Vec<Original> {
    let mut starts: Vec<_> = [0, 1, 5489, u32::MAX].map(seeded).into();
    starts.push(Original::from_seed([7; 32]));
    starts.push(with_parts(seeded(42).mt, 300));
    starts.push(with_parts(seeded(43).mt, u32::MAX));
    starts.push(with_parts([u32::MAX; 624], 0));
    starts
}
