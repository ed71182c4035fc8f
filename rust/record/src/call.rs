//! The calls by number, and what the original answers to each.

use crate::digest::{of_generator, Digest};
use vrd_original::rand_core::TryRng;
use vrd_original::xoshiro::Xoshiro256PlusPlus;
use vrd_original::{Random, RngBackend};

/// In the order of document 01's list; then what is only made, and the two long runs.
#[derive(Clone, Copy, PartialEq)]
pub enum Call {
    Rand,
    U64,
    I64,
    Pseudo,
    Seed,
    Split,
    Mti,
    SetMti,
    Twist,
    FillBytes,
    Bounded,
    RandomRange,
    Int,
    Range,
    Uint,
    Char,
    Choose,
    Float,
    Double,
    Bool,
    Uniform,
    Shuffle,
    RandSlice,
    /// No call: the generator as it is made.
    Made,
    /// The digest of so many words.
    Words,
    /// The digest of so many draws, the k-th below `bound_at(k)`.
    Draws,
}

/// The refusals that the original knows in a way of its own: an empty list, and no split.
const EMPTY: u32 = 4;
const NO_SPLIT: u32 = 9;

/// The highest position that `set_mti` stores in the port: an ordered departure.
const HIGHEST_STORED: usize = 624;

/// What a call answers beside the generator after it. A float is told by its bits as an `f64`, a list or a buffer by its digest, a place in
/// the high half.
pub struct Answer {
    pub refusal: u32,
    pub value: u64,
}

impl Call {
    pub fn has_budget(self) -> bool {
        use Call::*;
        matches!(self, Bounded | RandomRange | Int | Range | Uint | Char | Choose | Shuffle | RandSlice)
    }

    /// Whether the answer tells how many words it used.
    pub fn tells_words(self) -> bool {
        self.has_budget() || self == Call::Bool
    }

    /// What is answered for the value where the call is refused: a list's digest, or 0.
    pub fn refused_value(self, a: [u32; 4]) -> u64 {
        if self == Call::Shuffle {
            Digest::words(list(a[0]))
        } else {
            0
        }
    }

    /// The original's answer to the arguments; its generator moves on.
    pub fn perform(self, g: &mut Random, a: [u32; 4]) -> Answer {
        let [first, second, ..] = a;
        let (low, high) = (first as i32, second as i32);
        let value = match self {
            Call::Rand => g.rand().into(),
            Call::U64 => g.u64(),
            Call::I64 => g.i64() as u64,
            Call::Pseudo => g.pseudo().into(),
            Call::Mti => g.mti() as u64,
            Call::Seed | Call::SetMti | Call::Twist => self.changed(g, first),
            Call::FillBytes => filled(g, first),
            Call::Bounded => g.bounded(first).into(),
            Call::RandomRange => g.random_range(first, second).into(),
            Call::Int => u64::from(g.int(low, high) as u32),
            Call::Range => u64::from(g.range(low, high) as u32),
            Call::Uint => g.uint(first, second).into(),
            Call::Char => g.char().into(),
            Call::Float => f64::from(g.float()).to_bits(),
            Call::Double => g.double().to_bits(),
            Call::Bool => g.bool(f64::from_bits(joined(a[0], a[1]))).into(),
            Call::Uniform => g.uniform(f64::from_bits(joined(a[0], a[1])), f64::from_bits(joined(a[2], a[3]))).to_bits(),
            Call::Made => 0,
            Call::Words => Digest::words((0..first).map(|_| g.rand())),
            Call::Draws => Digest::words((0..first).map(|k| g.bounded(bound_at(k)))),
            Call::Split => return split(g),
            Call::Choose => return chosen(g, first),
            Call::Shuffle => shuffled(g, first),
            Call::RandSlice => return sliced(g, first, second),
        };
        Answer { refusal: 0, value }
    }

    /// A call that changes the state and answers nothing.
    fn changed(self, g: &mut Random, argument: u32) -> u64 {
        match self {
            Call::Seed => g.seed(argument),
            Call::SetMti => g.set_mti((argument as usize).min(HIGHEST_STORED)),
            _ => g.twist(),
        }
        0
    }
}

fn joined(low: u32, high: u32) -> u64 {
    u64::from(high) << 32 | u64::from(low)
}

/// The lists: entry i is 7 * i + 3.
fn list(length: u32) -> Vec<u32> {
    (0..length).map(|i| i * 7 + 3).collect()
}

/// The bound of draw k: a multiple of Knuth's 2654435761, and 1 where that is 0.
fn bound_at(k: u32) -> u32 {
    k.wrapping_mul(2_654_435_761).max(1)
}

fn filled(g: &mut Random, length: u32) -> u64 {
    let mut bytes = vec![0; length as usize];
    let Ok(()) = g.try_fill_bytes(&mut bytes);
    Digest::bytes(&bytes)
}

/// The child's digest; where there is none, the one of document 01, kind 0 with four zero words.
fn split(g: &mut Random) -> Answer {
    let zeros = RngBackend::Xoshiro256PlusPlus(Xoshiro256PlusPlus::from_parts([0; 4]));
    match g.split() {
        Some(child) => Answer { refusal: 0, value: of_generator(&child) },
        None => Answer { refusal: NO_SPLIT, value: of_generator(&Random::from_backend(zeros)) },
    }
}

fn chosen(g: &mut Random, length: u32) -> Answer {
    match g.choose(&list(length)) {
        Some(&entry) => Answer { refusal: 0, value: joined(entry, (entry - 3) / 7) },
        None => Answer { refusal: EMPTY, value: 0 },
    }
}

fn shuffled(g: &mut Random, length: u32) -> u64 {
    let mut list = list(length);
    g.shuffle(&mut list);
    Digest::words(list)
}

fn sliced(g: &mut Random, length: u32, window: u32) -> Answer {
    match g.rand_slice(&list(length), window as usize) {
        Ok(part) => Answer { refusal: 0, value: u64::from((part[0] - 3) / 7) },
        Err(_) => Answer { refusal: EMPTY, value: 0 },
    }
}
