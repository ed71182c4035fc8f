//! Calls that draw many words: the filling of 1 MiB and the shuffle of 65,536 entries, by the methods of both sides. Buffers and lists
//! are made beforehand and compared afterwards.

use crate::kinds;
use crate::timing::{timed, Case, Limit};
use vrd_original::rand_core::TryRng;

/// Bytes of the buffer, which a run fills once.
const BYTES: usize = 1 << 20;

/// Entries of the list, which a run shuffles once, and a budget that no shuffle comes near.
const ENTRIES: u32 = 65_536;
const BUDGET: u32 = 10 * ENTRIES;

pub fn cases(seed: u64) -> Vec<Case> {
    let fillings = (0..4).map(|kind| filling(kind, seed));
    fillings.chain((0..4).map(|kind| shuffle(kind, seed))).collect()
}

/// The list as one number that hangs on every entry and its place, and the parts.
fn numbers<N: Copy + Into<u64>>(list: &[N], parts: Vec<u64>) -> Vec<u64> {
    let mixed = list.iter().fold(1, |mixed: u64, &n| mixed.wrapping_mul(0x9E37_79B9_7F4A_7C15).wrapping_add(n.into()));
    [vec![mixed], parts].concat()
}

/// A buffer whose pages the machine has given already, as it does at the first write.
fn buffer() -> Vec<u8> {
    vec![0xA5; BYTES]
}

fn filling(kind: usize, seed: u64) -> Case {
    Case {
        what: "fill_bytes of 1 MiB",
        kind: kinds::NAMES[kind],
        count: BYTES as u64,
        unit: "byte",
        limit: Limit::Times(1.0),
        original: Box::new(move || {
            timed(
                (kinds::original(kind, seed), buffer()),
                |(g, buffer)| {
                    let Ok(()) = g.try_fill_bytes(buffer);
                },
                |(), (g, buffer)| numbers(buffer, kinds::original_parts(g)),
            )
        }),
        port: Box::new(move || {
            timed(
                (kinds::port(kind, seed), buffer()),
                |(g, buffer)| g.fill_bytes(buffer),
                |(), (g, buffer)| numbers(buffer, kinds::port_parts(g)),
            )
        }),
    }
}

fn shuffle(kind: usize, seed: u64) -> Case {
    let entries = || (0..ENTRIES).collect::<Vec<u32>>();
    Case {
        what: "shuffle of 65,536 entries",
        kind: kinds::NAMES[kind],
        count: ENTRIES.into(),
        unit: "entry",
        limit: Limit::Times(1.6),
        original: Box::new(move || {
            timed(
                (kinds::original(kind, seed), entries()),
                |(g, list)| g.shuffle(list),
                |(), (g, list)| numbers(list, kinds::original_parts(g)),
            )
        }),
        port: Box::new(move || {
            timed(
                (kinds::port(kind, seed), entries()),
                |(g, list)| g.shuffle(list, BUDGET),
                |drawn, (g, list)| if drawn.is_ok() { numbers(list, kinds::port_parts(g)) } else { Vec::new() },
            )
        }),
    }
}
