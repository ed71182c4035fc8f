//! Byte filling: every length from 0 to 100 and some long, one after the other.

use super::{parts, port_of, starts, KINDS};
use crate::fence::FencedList;
use crate::tally::{Row, Tally};
use vrd_original::rand_core::TryRng;

/// Lengths beyond 100: about a table of the twister, and some far longer.
const LONG: [usize; 9] = [255, 256, 1_000, 2_495, 2_496, 2_497, 4_999, 65_537, 1 << 20];

/// Bytes beside the buffer.
const MARK: u8 = 0xC3;

pub fn compare(tally: &mut Tally) {
    for (kind, name) in KINDS.into_iter().enumerate() {
        tally.row(name, "fill_bytes", |row| fill(row, kind));
    }
}

fn fill(row: &mut Row, kind: usize) {
    let width = if kind == 0 || kind == 3 { 8 } else { 4 };
    for (place, mut original) in starts::all(kind).into_iter().enumerate() {
        let mut port = port_of(&original);
        let long: &[usize] = if place < 3 { &LONG } else { &LONG[..6] };
        for length in (0..=100).chain(long.iter().copied()) {
            let mut wanted = vec![0xA5; length];
            let Ok(()) = original.try_fill_bytes(&mut wanted);
            let mut filled = FencedList::new(vec![0x5A; length], MARK);
            port.fill_bytes(filled.list());
            let what = || format!("{length} bytes of start {place}");
            row.case((&wanted[..], parts(&original)), (filled.checked(), port.parts()), what);
            row.drew(length.div_ceil(width) as u64);
        }
    }
}
