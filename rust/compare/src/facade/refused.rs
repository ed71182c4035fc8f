//! The refusals that are given before any word is looked at, each at budget 0 too, so that 8 comes last. Where the original panics
//! there is nothing to compare with but that it does: the numbers and their order are those of the table of refusals.

use super::lists::{LONGEST, MARK};
use super::{port_of, starts, Port, KINDS};
use crate::fence::FencedList;
use crate::tally::{Row, Tally};
use vrd::Refusal;

/// One entry more than the longest list.
const TOO_LONG: usize = LONGEST + 1;

pub fn compare(tally: &mut Tally) {
    for (kind, name) in KINDS.into_iter().enumerate() {
        tally.row(name, "refusals 1, 2, 4, 5, 6, before the budget", |row| {
            for original in starts::all(kind) {
                for budget in [0, 1, 100, u32::MAX] {
                    refusals(row, &port_of(&original), budget);
                }
            }
        });
    }
}

/// Each call must give this refusal, and leave the generator.
fn refusals(row: &mut Row, start: &Port, budget: u32) {
    let mut check = |expected: Refusal, what: &dyn Fn() -> String, call: &dyn Fn(&mut Port) -> Option<Refusal>| {
        let mut g = start.clone();
        let found = call(&mut g);
        row.case((Some(expected), start.parts()), (found, g.parts()), what);
    };
    check(Refusal::ZeroRange, &|| "bounded(0)".into(), &|g| g.bounded(0, budget).err());
    let top = u32::MAX;
    for (min, max) in [(0, 0), (5, 5), (top, top), (1, 0), (top, 0), (top, top - 1)] {
        let what = || format!("random_range({min}, {max})");
        check(Refusal::Order, &what, &|g| g.random_range(min, max, budget).err());
        if min > max {
            check(Refusal::Order, &|| format!("uint({min}, {max})"), &|g| g.uint(min, max, budget).err());
        }
    }
    for (min, max) in [(1, 0), (0, -1), (i32::MAX, i32::MIN), (i32::MIN + 1, i32::MIN)] {
        check(Refusal::Order, &|| format!("int({min}, {max})"), &|g| g.int(min, max, budget).err());
        check(Refusal::Order, &|| format!("range({min}, {max})"), &|g| g.range(min, max, budget).err());
    }
    let long = vec![7; TOO_LONG];
    check(Refusal::Empty, &|| "choose from none".into(), &|g| g.choose(&[], budget).err());
    check(Refusal::TooLong, &|| "choose from too many".into(), &|g| g.choose(&long, budget).err());
    check(Refusal::TooLong, &|| "shuffle of too many".into(), &|g| {
        let mut list = FencedList::new(0..TOO_LONG as u32, MARK);
        let refusal = g.shuffle(list.list(), budget).err();
        refusal.filter(|_| (0..).zip(list.checked()).all(|(place, &entry)| place == entry))
    });
    for (expected, length, window) in WINDOWS {
        let what = || format!("rand_slice of {length}, window {window}");
        check(expected, &what, &|g| g.rand_slice(&long[..length], window, budget).err());
    }
}

/// Lengths and windows with two faults at most: 4, 5, 6 in this order.
const WINDOWS: [(Refusal, usize, usize); 8] = [
    (Refusal::Empty, 0, 0),
    (Refusal::Empty, 0, 9),
    (Refusal::TooLong, TOO_LONG, 0),
    (Refusal::TooLong, TOO_LONG, 3),
    (Refusal::TooLong, TOO_LONG, TOO_LONG + 1),
    (Refusal::Window, 10, 0),
    (Refusal::Window, 10, 11),
    (Refusal::Window, TOO_LONG - 1, usize::MAX),
];
