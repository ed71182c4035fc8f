//! Draws within a budget, whatever the call. The original tells by its own run how many words a draw takes: the port must answer at
//! that budget and at larger ones, and refuse with 8 at smaller ones, leaving generator and list as they came.

use super::{parts, port_of, rejecting, starts, Port, KINDS};
use crate::tally::{Row, Tally};
use std::fmt::Debug;
use vrd::{Drawn, Refusal};
use vrd_original::Random as Original;

/// Draws of each call and kind in long runs, of a shuffle its draws of places.
const DRAWS: u64 = 1_000_000;

/// Draws from each start with each case: past the words of 0 of the states that reject. Lists that take more than `MANY` are drawn in
/// long runs only.
const FEW: u32 = 36;
const MANY: u32 = 1_000;

/// More words than any call here takes: a shuffle of 65,536 takes at least one for each entry but the last.
const MOST_WORDS: u32 = 200_000;

/// Arguments, how many draws they ask for, and whether these are settled by words of 0.
pub struct Case<A> {
    pub arguments: A,
    draws: u32,
    settled_by_zeros: bool,
}

impl<A> Case<A> {
    /// Arguments that ask for draws below these bounds. Word 0 is good for the bounds that divide 2^32.
    pub fn new(arguments: A, bounds: impl IntoIterator<Item = u64>) -> Self {
        let (mut draws, mut settled_by_zeros) = (0, true);
        for bound in bounds {
            draws += 1;
            settled_by_zeros &= bound.is_power_of_two();
        }
        Self { arguments, draws, settled_by_zeros }
    }
}

/// The words used or the refusal, and the value (of a list: what it holds afterwards).
pub type Outcome<V> = (Result<u32, Refusal>, V);

/// A call of either side on arguments; the port's takes the budget too.
pub type OriginalCall<'a, A, V> = &'a dyn Fn(&mut Original, &A) -> V;
pub type PortCall<'a, A, V> = &'a dyn Fn(&mut Port, &A, u32) -> Outcome<V>;

/// A call on both sides.
pub struct Call<'a, A, V> {
    pub name: &'static str,
    pub cases: Vec<Case<A>>,
    /// The value where the call is refused.
    pub refused: &'a dyn Fn(&A) -> V,
    pub original: OriginalCall<'a, A, V>,
    pub port: PortCall<'a, A, V>,
}

/// The outcome of a call that answers a value.
pub fn value<V>(answer: Result<Drawn<V>, Refusal>) -> Outcome<Option<V>> {
    match answer {
        Ok(drawn) => (Ok(drawn.used), Some(drawn.value)),
        Err(refusal) => (Err(refusal), None),
    }
}

impl<A: Debug, V: PartialEq + Debug> Call<'_, A, V> {
    /// Every kind: from each start with each case, from some in a long run, and from the states whose words are all 0.
    pub fn compare(&self, tally: &mut Tally) {
        for (kind, name) in KINDS.into_iter().enumerate() {
            tally.row(name, self.name, |row| {
                let (still, mut lively): (Vec<_>, Vec<_>) = starts::all(kind).into_iter().partition(starts::stands_still);
                self.without_end(row, &still);
                self.long_runs(row, &lively);
                lively.extend(rejecting::starts(kind));
                self.each_start(row, &lively);
                row.must_reject();
            });
        }
    }

    fn each_start(&self, row: &mut Row, starts: &[Original]) {
        for start in starts {
            for case in self.cases.iter().filter(|case| case.draws <= MANY) {
                let (mut original, mut port) = (start.clone(), port_of(start));
                for _ in 0..FEW.div_ceil(case.draws.max(1)) {
                    self.draw(row, case, &mut original, &mut port, true);
                }
            }
        }
    }

    fn long_runs(&self, row: &mut Row, starts: &[Original]) {
        let share = DRAWS.div_ceil(starts.len() as u64);
        for start in starts {
            let (mut original, mut port) = (start.clone(), port_of(start));
            let mut draws = 0;
            while draws < share {
                for case in &self.cases {
                    self.draw(row, case, &mut original, &mut port, false);
                    draws += u64::from(case.draws);
                }
            }
        }
    }

    /// One draw at the budget that it takes and at one less; with `more`, at larger and smaller ones too. Both sides move on.
    fn draw(&self, row: &mut Row, case: &Case<A>, original: &mut Original, port: &mut Port, more: bool) {
        let start = original.clone();
        let value = (self.original)(original, &case.arguments);
        // A state that gives 0 for ever may stay the same: then no word was rejected.
        let used = if start == *original { case.draws } else { words_between(&start, original) };
        row.drew(used.into());
        if used > case.draws {
            row.rejected();
        }
        if more {
            for budget in [used + 1, used + 1_000, u32::MAX] {
                self.answered(row, case, &mut port.clone(), budget, (used, &value, original));
            }
            for budget in [0, used / 2].into_iter().filter(|&budget| budget < used) {
                self.refused(row, case, port, budget, &start);
            }
        }
        if used > 0 {
            self.refused(row, case, port, used - 1, &start);
        }
        self.answered(row, case, port, used, (used, &value, original));
    }

    fn answered(&self, row: &mut Row, case: &Case<A>, port: &mut Port, budget: u32, told: (u32, &V, &Original)) {
        let (used, value, end) = told;
        let (answer, found) = (self.port)(port, &case.arguments, budget);
        let what = || format!("{:?} with budget {budget}", case.arguments);
        row.case((Ok(used), value, parts(end)), (answer, &found, port.parts()), what);
    }

    fn refused(&self, row: &mut Row, case: &Case<A>, port: &mut Port, budget: u32, start: &Original) {
        let (answer, found) = (self.port)(port, &case.arguments, budget);
        let expected = (self.refused)(&case.arguments);
        let what = || format!("{:?} with budget {budget}", case.arguments);
        row.case((Err(Refusal::Budget), &expected, parts(start)), (answer, &found, port.parts()), what);
    }

    /// From states whose words are all 0 the original draws on for ever, unless 0 is good for every draw: the port refuses at any
    /// budget.
    fn without_end(&self, row: &mut Row, starts: &[Original]) {
        for start in starts {
            for case in &self.cases {
                let (mut original, mut port) = (start.clone(), port_of(start));
                if case.settled_by_zeros {
                    self.draw(row, case, &mut original, &mut port, true);
                    continue;
                }
                for budget in [0, 1, case.draws, 700] {
                    self.refused(row, case, &mut port, budget, start);
                }
            }
        }
    }
}

/// The words that took the generator from one state to the other.
pub fn words_between(start: &Original, end: &Original) -> u32 {
    let mut at = start.clone();
    for used in 0..MOST_WORDS {
        if at == *end {
            return used;
        }
        at.rand();
    }
    panic!("the original took more than {MOST_WORDS} words");
}
