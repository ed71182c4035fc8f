//! Guard words on either side of what is lent to a call. A call that writes beyond what it was lent changes one, and the comparison stops.

use std::hint::black_box;
use std::ops::{Deref, DerefMut};

/// Guard words on each side of something that is lent whole, and what each of them holds.
const GUARDS: usize = 8;
const GUARD: u64 = 0x5AFE_C0DE_5AFE_C0DE;

/// Entries on each side of a list that is lent.
const MARKS: usize = 16;

/// Something with guard words before and after it in memory.
#[repr(C)]
#[derive(Clone)]
pub struct Fenced<T> {
    before: [u64; GUARDS],
    inside: T,
    after: [u64; GUARDS],
}

impl<T> Fenced<T> {
    pub fn new(inside: T) -> Self {
        Self { before: [GUARD; GUARDS], inside, after: [GUARD; GUARDS] }
    }

    /// What is inside, the guard words looked at.
    #[inline]
    pub fn checked(&self) -> &T {
        // The guard words may have changed without the compiler's knowledge.
        let found = black_box(self);
        let whole = found.before.iter().chain(&found.after).all(|&word| word == GUARD);
        assert!(whole, "a guard word beside what was lent has changed");
        &found.inside
    }
}

impl<T> Deref for Fenced<T> {
    type Target = T;

    fn deref(&self) -> &T {
        &self.inside
    }
}

impl<T> DerefMut for Fenced<T> {
    fn deref_mut(&mut self) -> &mut T {
        &mut self.inside
    }
}

/// A list or a buffer with entries of one mark before and after it.
pub struct FencedList<T> {
    all: Vec<T>,
    mark: T,
}

impl<T: Copy + PartialEq> FencedList<T> {
    pub fn new(list: impl IntoIterator<Item = T>, mark: T) -> Self {
        let marks = std::iter::repeat_n(mark, MARKS);
        Self { all: marks.clone().chain(list).chain(marks).collect(), mark }
    }

    /// The list, to be lent.
    pub fn list(&mut self) -> &mut [T] {
        let end = self.all.len() - MARKS;
        &mut self.all[MARKS..end]
    }

    /// The list, the marks looked at.
    pub fn checked(&self) -> &[T] {
        let (before, rest) = black_box(&self.all).split_at(MARKS);
        let (list, after) = rest.split_at(rest.len() - MARKS);
        assert!(before.iter().chain(after).all(|mark| *mark == self.mark), "an entry beside the list that was lent has changed");
        list
    }
}
