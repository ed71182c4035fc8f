//! The refusals and their numbers.

use core::fmt;

/// Why a call was not answered. Generator, lists and buffers are then as they came.
///
/// ```
/// use vrd::Refusal;
///
/// assert_eq!(Refusal::Budget.number(), 8);
/// assert_eq!(Refusal::from_number(8), Some(Refusal::Budget));
/// assert_eq!(Refusal::from_number(0), None); // 0 is "answered"
/// assert_eq!(Refusal::Budget.to_string(), "refused with 8: the draws don't finish within the budget");
/// ```
#[derive(Clone, Copy, Debug, Eq, Hash, PartialEq)]
#[repr(u32)]
pub enum Refusal {
    /// `bounded` by 0.
    ZeroRange = 1,
    /// The lower end is above the upper one, or equal to it where that leaves nothing to draw.
    Order = 2,
    /// A chance that is NaN, below 0 or above 1.
    Chance = 3,
    /// An empty list.
    Empty = 4,
    /// A list above [`list_limit`](crate::list_limit).
    TooLong = 5,
    /// A window of 0, or longer than the list.
    Window = 6,
    /// An end of `uniform` that is NaN or infinite, or ends too far apart.
    NotFinite = 7,
    /// The call's draws don't finish within the budget.
    Budget = 8,
    /// `split` of a kind other than Xoshiro256++.
    NoSplit = 9,
    /// A kind number above 3.
    Kind = 10,
    /// A byte seed that is not of the kind's length.
    SeedLength = 11,
}

/// Every refusal with what it says, in the order of the numbers.
const SAID: [(Refusal, &str); 11] = [
    (Refusal::ZeroRange, "there is no number below 0"),
    (Refusal::Order, "the ends are out of order"),
    (Refusal::Chance, "the chance is not a number from 0 to 1"),
    (Refusal::Empty, "the list is empty"),
    (Refusal::TooLong, "the list is longer than the limit"),
    (Refusal::Window, "the window is 0 or longer than the list"),
    (Refusal::NotFinite, "an end, or the distance of the ends, is not finite"),
    (Refusal::Budget, "the draws don't finish within the budget"),
    (Refusal::NoSplit, "this kind can't be split"),
    (Refusal::Kind, "there is no such kind"),
    (Refusal::SeedLength, "the seed is not of the kind's length"),
];

impl Refusal {
    /// The number, from 1 to 11.
    pub const fn number(self) -> u32 {
        self as u32
    }

    /// The refusal with this number, if there is one.
    pub fn from_number(number: u32) -> Option<Self> {
        SAID.iter().map(|&(refusal, _)| refusal).find(|refusal| refusal.number() == number)
    }

    /// What an export answered: the value, or the refusal that its number stands for.
    #[inline]
    pub(crate) fn or<T>(number: u32, value: T) -> Result<T, Self> {
        if number == 0 {
            return Ok(value);
        }
        Err(Self::from_number(number).expect("the library refuses by the numbers 1 to 11"))
    }
}

impl fmt::Display for Refusal {
    fn fmt(&self, f: &mut fmt::Formatter<'_>) -> fmt::Result {
        let (_, said) = SAID[self.number() as usize - 1];
        write!(f, "refused with {}: {said}", self.number())
    }
}

impl core::error::Error for Refusal {}
