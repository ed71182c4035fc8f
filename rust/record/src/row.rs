//! A row: call, kind, maker, words skipped, the maker's 8 words, 4 arguments (the last one the budget where there is one), and the answer:
//! refusal, value (low, high), words used, the next two words, and the digest of the generator after the call (low, high).

use crate::call::Call;
use crate::digest::of_generator;
use crate::start::Start;
use vrd_original::Random;

pub const WORDS: usize = 24;

pub type Row = [u32; WORDS];

/// Which budget a row gives, by the words that the original takes.
#[derive(Clone, Copy)]
pub enum Allowance {
    Exactly,
    OneMore,
    Most,
    OneLess,
}

/// The refusal of a call that the budget ends.
const OUT_OF_BUDGET: u32 = 8;

/// More words than any call here takes.
const MANY_WORDS: u32 = 80_000;

/// The words that took the generator from one state to the other.
fn words_between(start: &Random, end: &Random) -> u32 {
    let mut at = start.clone();
    for used in 0..MANY_WORDS {
        if at == *end {
            return used;
        }
        at.rand();
    }
    panic!("the original took more than {MANY_WORDS} words");
}

/// The row of a call. Where the allowance is one word less than it takes, it is the row of a refusal with 8.
pub fn row(call: Call, start: Start, mut arguments: [u32; 4], allowance: Allowance) -> Row {
    let before = start.generator();
    let mut after = before.clone();
    let mut answer = call.perform(&mut after, arguments);
    let mut used = if call.tells_words() { words_between(&before, &after) } else { 0 };
    if call.has_budget() {
        arguments[3] = match allowance {
            Allowance::Exactly => used,
            Allowance::OneMore => used + 1,
            Allowance::Most => u32::MAX,
            Allowance::OneLess => used.checked_sub(1).expect("the call takes a word"),
        };
        if arguments[3] < used {
            answer.refusal = OUT_OF_BUDGET;
            answer.value = call.refused_value(arguments);
            used = 0;
            after = before;
        }
    }
    let digest = of_generator(&after);
    let tail = [answer.refusal, answer.value as u32, (answer.value >> 32) as u32, used];
    let last = [after.rand(), after.rand(), digest as u32, (digest >> 32) as u32];
    let mut words = [call as u32, start.kind, start.maker as u32, start.skipped].to_vec();
    words.extend(start.words.iter().chain(&arguments).chain(&tail).chain(&last));
    words.try_into().expect("a row has 24 words")
}
