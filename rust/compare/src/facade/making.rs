//! Makers: byte seeds of every kind, seed numbers, seeds with streams, parts; and the first words of what they make.

use super::{parts, starts, KINDS};
use crate::seeds;
use crate::tally::{Row, Tally};
use std::fmt::Debug;
use vrd::{Random as Port, Refusal};
use vrd_original::pcg::{Pcg32, Pcg64};
use vrd_original::rand_core::SeedableRng;
use vrd_original::xoshiro::Xoshiro256PlusPlus;
use vrd_original::{MersenneTwister, Random as Original, RngBackend};

/// Words drawn from what was made.
const WORDS: u64 = 4;

pub fn compare(tally: &mut Tally) {
    byte_seeds(tally);
    numbers(tally);
    streams(tally);
    refused(tally);
    for (kind, name) in KINDS.into_iter().enumerate() {
        tally.row(name, "from_parts, parts", |row| {
            for original in starts::all(kind) {
                let port = Port::from_parts(parts(&original));
                made(row, original, port, &"its parts");
            }
        });
    }
}

/// A maker over all its inputs.
fn maker<I: Copy + Debug>(
    tally: &mut Tally,
    kind: usize,
    call: &'static str,
    inputs: Vec<I>,
    original: impl Fn(I) -> Original,
    port: impl Fn(I) -> Port,
) {
    tally.row(KINDS[kind], call, |row| {
        for input in inputs {
            made(row, original(input), port(input), &input);
        }
    });
}

/// What was made on both sides, and its first words.
fn made(row: &mut Row, mut original: Original, mut port: Port, input: &dyn Debug) {
    row.case((kind_of(&original), parts(&original)), (port.kind(), port.parts()), || format!("made from {input:?}"));
    for k in 0..WORDS {
        row.case(original.u64(), port.u64(), || format!("word {k} from {input:?}"));
    }
    row.drew(WORDS);
}

fn kind_of(g: &Original) -> u32 {
    match g.backend() {
        RngBackend::Xoshiro256PlusPlus(_) => 0,
        RngBackend::MersenneTwister(_) => 1,
        RngBackend::Pcg32(_) => 2,
        _ => 3,
    }
}

/// A generator of bytes of the kind's length.
fn make(kind: u32, seed: &[u8]) -> Port {
    Port::make(kind, seed).expect("a seed of the kind's length is taken")
}

fn byte_seeds(tally: &mut Tally) {
    let (long, short) = (seeds::bytes::<32>, seeds::bytes::<16>);
    let twister = |seed| Original::from_backend(RngBackend::MersenneTwister(Box::new(MersenneTwister::from_seed(seed))));
    maker(tally, 0, "from_seed", long(), Original::from_seed, Port::from_seed);
    let xoshiro = |seed| starts::xoshiro(Xoshiro256PlusPlus::from_seed(seed));
    maker(tally, 0, "make", long(), xoshiro, |seed| make(0, &seed));
    maker(tally, 1, "make", long(), twister, |seed| make(1, &seed));
    maker(tally, 2, "make", short(), |seed| starts::pcg32(Pcg32::from_seed(seed)), |seed| make(2, &seed));
    maker(tally, 3, "make", long(), |seed| starts::pcg64(Pcg64::from_seed(seed)), |seed| make(3, &seed));
}

fn numbers(tally: &mut Tally) {
    maker(tally, 0, "from_u64_seed", seeds::long(), Original::from_u64_seed, Port::from_u64_seed);
    let original = Original::new_mersenne_twister_with_seed;
    let call = "new_mersenne_twister_with_seed";
    maker(tally, 1, call, seeds::short(), original, Port::new_mersenne_twister_with_seed);
    let original = Original::new_pcg32_with_seed;
    maker(tally, 2, "new_pcg32_with_seed", seeds::long(), original, Port::new_pcg32_with_seed);
    let original = Original::new_pcg64_with_seed;
    maker(tally, 3, "new_pcg64_with_seed", seeds::wide(), original, Port::new_pcg64_with_seed);
}

fn streams(tally: &mut Tally) {
    let original = |(seed, stream)| starts::pcg32(Pcg32::from_seed_stream(seed, stream));
    let port = |(seed, stream)| Port::new_pcg32_with_stream(seed, stream);
    maker(tally, 2, "new_pcg32_with_stream", seeds::pairs(&seeds::long()), original, port);
    let original = |(seed, stream)| starts::pcg64(Pcg64::from_seed_stream(seed, stream));
    let port = |(seed, stream)| Port::new_pcg64_with_stream(seed, stream);
    maker(tally, 3, "new_pcg64_with_stream", seeds::pairs(&seeds::wide()), original, port);
}

/// Kinds that there are not, and lengths that are not the kind's: 10 before 11.
fn refused(tally: &mut Tally) {
    tally.row("0 to 9 and the largest", "make (refused, seeds of 0 to 64 bytes)", |row| {
        for kind in (0..10).chain([u32::MAX]) {
            for length in 0..=64 {
                let wanted = if kind == 2 { 16 } else { 32 };
                let expected = match (kind > 3, length == wanted) {
                    (true, _) => Refusal::Kind,
                    (false, true) => continue,
                    (false, false) => Refusal::SeedLength,
                };
                let found = Port::make(kind, &vec![5; length]);
                row.case(Err(expected), found, || format!("kind {kind}, {length} bytes"));
            }
        }
    });
}
