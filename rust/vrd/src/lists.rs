//! Lists of bottle numbers: an entry chosen, a part of the list, the list in another order.

use crate::answers::drawn;
use crate::{exports, Bottle, Drawn, Random, Refusal};

/// # Lists within a budget
///
/// A list has at most [`list_limit`](crate::list_limit) entries ([`Refusal::TooLong`]). Refused, it is as it came.
///
/// ```
/// use vrd::{Random, Refusal};
///
/// let bottles = [10, 20, 30, 40];
/// let mut unit = Random::new_pcg32_with_seed(42);
///
/// let place = (u64::from(unit.clone().rand()) * 4 >> 32) as usize;
/// let chosen = unit.choose(&bottles, 100)?.value;
/// assert_eq!((chosen.place, chosen.number), (place, bottles[place]));
///
/// let start = (u64::from(unit.clone().rand()) * 3 >> 32) as usize;
/// assert_eq!(unit.rand_slice(&bottles, 2, 100)?.value, &bottles[start..start + 2]);
/// assert_eq!(unit.rand_slice(&bottles, 5, 100), Err(Refusal::Window));
///
/// // Four entries take three draws: with a budget of 2 the list stays.
/// let mut order = bottles;
/// assert_eq!(unit.shuffle(&mut order, 2), Err(Refusal::Budget));
/// assert_eq!(order, bottles);
/// assert_eq!(unit.shuffle(&mut order, 100)?.used, 3);
/// order.sort();
/// assert_eq!(order, bottles);
/// # Ok::<(), Refusal>(())
/// ```
impl Random {
    /// An entry of the list, with its place. From a single entry it still takes a word.
    ///
    /// Refused are an empty list ([`Refusal::Empty`]) and one too long.
    #[inline]
    pub fn choose(&mut self, list: &[u32], budget: u32) -> Result<Drawn<Bottle>, Refusal> {
        let chosen = exports::choose(&mut self.state, &mut self.table, list, budget);
        let bottle = Bottle { place: chosen.place as usize, number: chosen.value as u32 };
        drawn(chosen.refusal, bottle, chosen.used)
    }

    /// A part of the list that is `window` long. A window as long as the list still takes a word.
    ///
    /// Refused are an empty list ([`Refusal::Empty`]), one too long, and a window of 0 or longer than the list ([`Refusal::Window`]).
    #[inline]
    pub fn rand_slice<'a>(&mut self, list: &'a [u32], window: usize, budget: u32) -> Result<Drawn<&'a [u32]>, Refusal> {
        let started = exports::rand_slice(&mut self.state, &mut self.table, list, window, budget);
        drawn(started.refusal, part(list, started.value as usize, window), started.used)
    }

    /// Puts the list into another order: from the last place down to place 1, each swaps with a place drawn up to itself. One
    /// budget for all draws; lists of 0 and 1 entries take no word.
    ///
    /// Refused is a list too long.
    #[inline]
    pub fn shuffle(&mut self, list: &mut [u32], budget: u32) -> Result<Drawn<()>, Refusal> {
        let ordered = exports::shuffle(&mut self.state, &mut self.table, list, budget);
        drawn(ordered.refusal, (), ordered.used)
    }
}

/// The most entries that a list may have.
pub fn list_limit() -> usize {
    exports::vrd_list_limit() as usize
}

/// The part of the list that starts there, or the empty part where it would end beyond the list.
#[inline]
fn part(list: &[u32], start: usize, window: usize) -> &[u32] {
    start.checked_add(window).and_then(|end| list.get(start..end)).unwrap_or(&[])
}
