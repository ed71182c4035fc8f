//! What draws answer.

use crate::exports;
use crate::Refusal;

/// What was drawn, and how many words it took.
#[derive(Clone, Copy, Debug, Eq, Hash, PartialEq)]
pub struct Drawn<T> {
    /// What was drawn.
    pub value: T,
    /// The words used, the rejected ones too: the generator now stands so many words on.
    pub used: u32,
}

/// An entry of a list of bottle numbers.
#[derive(Clone, Copy, Debug, Eq, Hash, PartialEq)]
pub struct Bottle {
    /// Its place in the list, from 0.
    pub place: usize,
    /// The number that stands there.
    pub number: u32,
}

/// The answer of an export that tells refusal, value and words used.
#[inline]
pub(crate) fn drawn<T>(refusal: u32, value: T, used: u32) -> Result<Drawn<T>, Refusal> {
    Refusal::or(refusal, Drawn { value, used })
}

/// The answer of an export that draws a number of 32 bits.
#[inline]
pub(crate) fn number(answer: exports::Number) -> Result<Drawn<u32>, Refusal> {
    drawn(answer.refusal, answer.value as u32, answer.used)
}

/// The answer of an export that draws a signed number or a bool.
#[inline]
pub(crate) fn small<V>(answer: exports::Small<V>) -> Result<Drawn<V>, Refusal> {
    drawn(answer.refusal, answer.value, answer.used)
}
