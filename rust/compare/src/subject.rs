//! One generator on both sides, and the comparisons that are the same for all of them.

use crate::tally::{Row, Tally};
use crate::{LOOP_WORDS, STEP_WORDS};
use simple::Simple;
use std::fmt::Debug;

/// Words drawn one by one from each state that is set by hand: past two twists of the twister.
const HAND_WORDS: u64 = 1_300;

/// A call that draws one word, widened to 64 bits.
pub struct Step<O, P> {
    pub name: &'static str,
    pub original: fn(&mut O) -> u64,
    pub port: fn(&mut P) -> u64,
}

/// An exported loop: the XOR of the next n words, widened to 64 bits, against that many words of the original.
pub struct Words<O, P> {
    pub name: &'static str,
    pub original: fn(&mut O) -> u64,
    pub port: fn(&mut P, u64) -> u64,
}

/// A generator: how a state of the original reads as the port's, and the calls that draw.
pub struct Subject<O: 'static, P: 'static> {
    pub name: &'static str,
    pub state: fn(&O) -> P,
    pub steps: &'static [Step<O, P>],
    pub words: &'static [Words<O, P>],
}

impl<O: Clone, P: Clone + PartialEq + Debug> Subject<O, P> {
    /// A maker over all its inputs: the state made, then the first words drawn from it.
    pub fn maker<I: Copy + Debug>(
        &self,
        tally: &mut Tally,
        call: &'static str,
        inputs: &[I],
        original: impl Fn(I) -> O,
        port: impl Fn(I) -> P,
    ) {
        tally.row(self.name, call, |row| {
            for &input in inputs {
                let mut one = original(input);
                let mut other = port(input);
                row.case((self.state)(&one), other.clone(), || format!("the state from {input:?}"));
                self.chunk(row, &self.words[0], &mut one, &mut other, 8);
            }
        });
    }

    /// 10^6 words of each call, one by one, and 10^7 through the loops, shared between these starts.
    pub fn long_runs(&self, tally: &mut Tally, starts: &[O]) {
        let share = starts.len() as u64;
        for step in self.steps {
            tally.row(self.name, step.name, |row| {
                for start in starts {
                    self.one_by_one(row, step, start, STEP_WORDS.div_ceil(share));
                }
            });
        }
        for words in self.words {
            tally.row(self.name, words.name, |row| {
                for start in starts {
                    self.in_chunks(row, words, start, LOOP_WORDS.div_ceil(share));
                }
            });
        }
    }

    /// Every call from each of these states.
    pub fn hand_set(&self, tally: &mut Tally, states: &[O]) {
        tally.row(self.name, "states set by hand, every call", |row| {
            for state in states {
                for step in self.steps {
                    self.one_by_one(row, step, state, HAND_WORDS);
                }
                for words in self.words {
                    self.in_chunks(row, words, state, HAND_WORDS);
                }
            }
        });
    }

    /// Word for word, the states compared after each.
    fn one_by_one(&self, row: &mut Row, step: &Step<O, P>, start: &O, words: u64) {
        let mut one = start.clone();
        let mut other = (self.state)(start);
        for k in 0..words {
            let original = (step.original)(&mut one);
            let port = (step.port)(&mut other);
            row.case((original, (self.state)(&one)), (port, other.clone()), || format!("word {k} of {}", step.name));
        }
        row.drew(words);
    }

    /// In chunks of 0 words, 1 word, a table's length and its neighbours, then lengths up to 4095.
    fn in_chunks(&self, row: &mut Row, words: &Words<O, P>, start: &O, total: u64) {
        let mut one = start.clone();
        let mut other = (self.state)(start);
        let mut lengths = Simple::new(total);
        let first = [0, 1, 2, 0, 623, 624, 625];
        let mut left = total;
        for k in 0.. {
            let length = first.get(k).copied().unwrap_or_else(|| lengths.long() % 4_096).min(left);
            self.chunk(row, words, &mut one, &mut other, length);
            left -= length;
            if left == 0 {
                break;
            }
        }
    }

    /// The XOR of the next `length` words, and the states after them.
    fn chunk(&self, row: &mut Row, words: &Words<O, P>, one: &mut O, other: &mut P, length: u64) {
        let original = (0..length).fold(0, |xor, _| xor ^ (words.original)(one));
        let port = (words.port)(other, length);
        row.case((original, (self.state)(one)), (port, other.clone()), || format!("{length} words of {}", words.name));
        row.drew(length);
    }
}
