//! Every export that takes a generator, under one signature, beside the original's call with the same arguments.

use super::lent::Lent;
use crate::fence::Fenced;
use port::{Number, Small, State, Table, Word};
use vrd_original::rand_core::TryRng;
use vrd_original::Random as Original;

/// The list, the buffer and the child's state before a call.
const LIST: [u32; 5] = [10, 20, 30, 40, 50];
const BYTES: [u8; 100] = [0xA5; 100];
const CHILD: State = [9, 8, 7, 6, 5, 4];

/// What an export answers: the refusal, the value as 64 bits (of what was lent 0 where it is as it came), and the words used.
#[derive(Debug, PartialEq)]
pub struct Answer {
    pub refusal: u32,
    pub value: u64,
    pub used: u32,
}

impl Answer {
    pub fn refused(refusal: u32) -> Self {
        Self { refusal, value: 0, used: 0 }
    }
}

/// An export with its arguments made of a number.
pub struct Export {
    pub name: &'static str,
    /// The refusal where the number is 0; 0 where the call refuses no arguments.
    pub refused: u32,
    /// The original's call with the arguments that 100 makes: the refusal where it has no answer, and the value as 64 bits.
    pub original: fn(&mut Original) -> (u32, u64),
    pub port: fn(&mut State, &mut Table, u32) -> Answer,
}

type Call = fn(&mut State, &mut Table, u32) -> Answer;

/// An export that refuses no arguments, and one that does.
const fn always(name: &'static str, original: fn(&mut Original) -> (u32, u64), port: Call) -> Export {
    Export { name, refused: 0, original, port }
}

const fn refusing(name: &'static str, refused: u32, original: fn(&mut Original) -> (u32, u64), port: Call) -> Export {
    Export { name, refused, original, port }
}

pub const EXPORTS: [Export; 23] = [
    always("vrd_rand_in", |g| (0, g.rand().into()), |s, t, _| word(port::vrd_rand_in(s, t), |value| value)),
    always("vrd_u64_in", |g| (0, g.u64()), |s, t, _| word(port::vrd_u64_in(s, t), |value| value)),
    always("vrd_i64_in", |g| (0, g.i64() as u64), |s, t, _| word(port::vrd_i64_in(s, t), |value| value as u64)),
    always("vrd_pseudo_in", |g| (0, g.pseudo().into()), |s, t, _| word(port::vrd_pseudo_in(s, t), |value| value)),
    always("vrd_float_in", |g| (0, g.float().to_bits().into()), |s, t, _| word(port::vrd_float_in(s, t), |value| value.to_bits().into())),
    always("vrd_double_in", |g| (0, g.double().to_bits()), |s, t, _| word(port::vrd_double_in(s, t), f64::to_bits)),
    refusing(
        "vrd_uniform_in",
        2,
        |g| (0, g.uniform(0.0, 100.0).to_bits()),
        |s, t, n| word(port::vrd_uniform_in(s, t, 0.0, n.into()), f64::to_bits),
    ),
    refusing(
        "vrd_bool_in",
        3,
        |g| (0, g.bool(0.5).into()),
        |s, t, n| small(port::vrd_bool_in(s, t, if n == 0 { f64::NAN } else { 0.5 }), u64::from),
    ),
    refusing("vrd_bounded_in", 1, |g| (0, g.bounded(100).into()), |s, t, n| number(port::vrd_bounded_in(s, t, n, budget(n)))),
    refusing(
        "vrd_random_range_in",
        2,
        |g| (0, g.random_range(5, 105).into()),
        |s, t, n| number(port::vrd_random_range_in(s, t, 5, 5 + n, budget(n))),
    ),
    refusing("vrd_uint_in", 2, |g| (0, g.uint(6, 105).into()), |s, t, n| number(port::vrd_uint_in(s, t, 6, 5 + n, budget(n)))),
    refusing(
        "vrd_int_in",
        2,
        |g| (0, g.int(-6, 94) as u64),
        |s, t, n| small(port::vrd_int_in(s, t, -6, n as i32 - 6 - i32::from(n == 0), budget(n)), |value| value as u64),
    ),
    refusing(
        "vrd_range_in",
        2,
        |g| (0, g.range(-6, 94) as u64),
        |s, t, n| small(port::vrd_range_in(s, t, -6, n as i32 - 6 - i32::from(n == 0), budget(n)), |value| value as u64),
    ),
    refusing("vrd_char_in", 8, |g| (0, u64::from(u32::from(g.char()))), |s, t, n| number(port::vrd_char_in(s, t, budget(n)))),
    refusing(
        "vrd_choose_in",
        4,
        |g| (0, chosen(g)),
        |s, t, n| {
            let a = port::choose(s, t, &LIST[..LIST.len().min(n as usize)], budget(n));
            Answer { refusal: a.refusal, value: a.place << 32 | a.value, used: a.used }
        },
    ),
    refusing("vrd_rand_slice_in", 6, |g| (0, started(g)), |s, t, n| number(port::rand_slice(s, t, &LIST, 3.min(n as usize), budget(n)))),
    refusing(
        "vrd_shuffle_in",
        8,
        |g| (0, shuffled(g)),
        |s, t, n| {
            let mut list = Fenced::new(LIST);
            let a = port::shuffle(s, t, &mut *list, budget(n));
            Answer { refusal: a.refusal, value: a.value + mixed(list.checked(), &LIST), used: a.used }
        },
    ),
    always(
        "vrd_fill_bytes_in",
        |g| (0, filled(g)),
        |s, t, _| {
            let mut bytes = Fenced::new(BYTES);
            let refusal = port::fill_bytes(s, t, &mut *bytes);
            Answer { refusal, value: mixed(bytes.checked(), &BYTES), used: 0 }
        },
    ),
    always(
        "vrd_seed_in",
        |g| {
            g.seed(100);
            (0, 0)
        },
        |s, t, n| Answer::refused(port::vrd_seed_in(s, t, n)),
    ),
    always(
        "vrd_twist_in",
        |g| {
            g.twist();
            (0, 0)
        },
        |s, t, _| Answer::refused(port::vrd_twist_in(s, t)),
    ),
    always(
        "vrd_set_mti_in",
        |g| {
            g.set_mti(100);
            (0, 0)
        },
        |s, _, n| Answer::refused(port::vrd_set_mti_in(s, n)),
    ),
    always("vrd_mti_in", |g| (0, g.mti() as u64), |s, _, _| word(port::vrd_mti_in(s), |value| value)),
    always("vrd_split_in", divided, |s, _, _| {
        let mut child = Fenced::new(CHILD);
        let refusal = port::vrd_split_in(s, &mut child);
        Answer { refusal, value: mixed(&child.checked()[..], &CHILD), used: 0 }
    }),
];

/// A budget that no draw of these comes near, and none.
fn budget(n: u32) -> u32 {
    100 * n
}

fn word<V>(a: Word<V>, bits: fn(V) -> u64) -> Answer {
    Answer { refusal: a.refusal, value: bits(a.value), used: 0 }
}

fn small<V>(a: Small<V>, bits: fn(V) -> u64) -> Answer {
    Answer { refusal: a.refusal, value: bits(a.value), used: a.used }
}

fn number(a: Number) -> Answer {
    Answer { refusal: a.refusal, value: a.value, used: a.used }
}

/// What was lent as one number: 0 where it is as it came.
fn mixed<T: Copy + PartialEq + Into<u64>>(now: &[T], before: &[T]) -> u64 {
    if now == before {
        return 0;
    }
    now.iter().fold(1, |mixed: u64, &entry| mixed.wrapping_mul(0x9E37_79B9_7F4A_7C15).wrapping_add(entry.into()))
}

/// The place in the high half, and the entry.
fn chosen(g: &mut Original) -> u64 {
    let entry = *g.choose(&LIST).expect("the list has entries");
    let place = LIST.iter().position(|other| *other == entry).expect("the entry is of the list");
    (place as u64) << 32 | u64::from(entry)
}

fn started(g: &mut Original) -> u64 {
    let part = g.rand_slice(&LIST, 3).expect("the window fits");
    LIST.iter().position(|entry| *entry == part[0]).expect("the part is of the list") as u64
}

fn shuffled(g: &mut Original) -> u64 {
    let mut list = LIST;
    g.shuffle(&mut list);
    mixed(&list, &LIST)
}

fn filled(g: &mut Original) -> u64 {
    let mut bytes = BYTES;
    let Ok(()) = g.try_fill_bytes(&mut bytes);
    mixed(&bytes, &BYTES)
}

/// The child has a position of 0, which its kind does not use.
fn divided(g: &mut Original) -> (u32, u64) {
    match g.split() {
        Some(child) => (0, mixed(&Lent::of(&child, 0).state[..], &CHILD)),
        None => (9, 0),
    }
}
