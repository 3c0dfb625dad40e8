//! The checks, as errors.

use core::error::Error;
use core::fmt;

/// The first check of a call that fails. Later versions may have more checks; the numbers of these stay.
///
/// ```
/// use lomvuze::{encode, Points, Refusal, Sizes, Witness, P};
///
/// let (sizes, points) = (Sizes { m: 0, n: 2, k: 2 }, Points::built_in());
/// assert!(encode(sizes, &points, &Witness::from([2, P - 1])).is_ok());
///
/// let refusal = encode(sizes, &points, &Witness::from([2, P])).unwrap_err();
/// assert_eq!(refusal, Refusal::Element);
/// assert_eq!(refusal.number(), 3);
/// assert_eq!(refusal.to_string(), "an element is p or more");
///
/// // From the verdict of a call in C, or from what `claims` prints.
/// assert_eq!(Refusal::try_from(3), Ok(Refusal::Element));
/// assert_eq!(Refusal::try_from(0).unwrap_err().to_string(), "no check has the number 0");
/// ```
#[derive(Clone, Copy, PartialEq, Eq, PartialOrd, Ord, Hash, Debug)]
#[non_exhaustive]
pub enum Refusal {
    /// A sheet has over 60,000 bytes or breaks the line rules.
    Sheet = 1,

    /// A size, item count, position count, entry count or `end` count is not permitted, or a buffer does not
    /// have exactly the length that the sizes give.
    Sizes = 2,

    /// An element, coefficient, entry's value or opened value is p or more.
    Element = 3,

    /// A circuit entry is outside rows or columns, or out of order.
    Circuit = 4,

    /// The challenge is below l, or not below p.
    Challenge = 5,

    /// A position is 4k or more.
    Position = 6,

    /// The new item's e, r or x is not the one that items, quotient and challenge give.
    NewItem = 7,

    /// An opening does not lead to its item's root.
    Opening = 8,

    /// A new opened value is not the combination of the items' opened values.
    Combination = 9,

    /// An item's root is not that of its witness's codeword.
    Root = 10,

    /// An item does not hold with its witness.
    Claim = 11,

    /// A point repeats another, or is p or more.
    Points = 12,

    /// An item's first input is not 1.
    FirstInput = 13,
}

impl Refusal {
    /// All checks, by their numbers. A call runs its own in the order that its page gives: 12 directly after 3, and 13
    /// directly after 4 (in verifying directly after 3).
    pub const ALL: &'static [Refusal] = &[
        Refusal::Sheet,
        Refusal::Sizes,
        Refusal::Element,
        Refusal::Circuit,
        Refusal::Challenge,
        Refusal::Position,
        Refusal::NewItem,
        Refusal::Opening,
        Refusal::Combination,
        Refusal::Root,
        Refusal::Claim,
        Refusal::Points,
        Refusal::FirstInput,
    ];

    /// The number of the check: the verdict of the call in C (`enum lomvuze_answer`).
    pub const fn number(self) -> u32 {
        self as u32
    }
}

impl fmt::Display for Refusal {
    fn fmt(&self, out: &mut fmt::Formatter) -> fmt::Result {
        out.write_str(match self {
            Refusal::Sheet => "the sheet is over 60,000 bytes or breaks the line rules",
            Refusal::Sizes => "a size, count or length is not permitted",
            Refusal::Element => "an element is p or more",
            Refusal::Circuit => "a circuit entry is outside or out of order",
            Refusal::Challenge => "the challenge is not permitted",
            Refusal::Position => "a position is outside the codeword",
            Refusal::NewItem => "the new item is not the one of the challenge",
            Refusal::Opening => "an opening does not lead to its root",
            Refusal::Combination => "a new opened value is no combination",
            Refusal::Root => "a root is not that of its witness",
            Refusal::Claim => "an item does not hold",
            Refusal::Points => "a point repeats another, or is p or more",
            Refusal::FirstInput => "an item's first input is not 1",
        })
    }
}

impl Error for Refusal {}

impl From<Refusal> for u32 {
    fn from(refusal: Refusal) -> u32 {
        refusal.number()
    }
}

impl TryFrom<u32> for Refusal {
    type Error = NoCheck;

    fn try_from(number: u32) -> Result<Refusal, NoCheck> {
        let refusal = Refusal::ALL.iter().find(|refusal| refusal.number() == number);
        refusal.copied().ok_or(NoCheck(number))
    }
}

/// A number that no check has. 0 is one: it says that a call accepted.
#[derive(Clone, Copy, PartialEq, Eq, Hash, Debug)]
pub struct NoCheck(u32);

impl fmt::Display for NoCheck {
    fn fmt(&self, out: &mut fmt::Formatter) -> fmt::Result {
        write!(out, "no check has the number {}", self.0)
    }
}

impl Error for NoCheck {}

/// What the verdict of a call says. That of the library is 0 or the number of a check.
pub(crate) fn accepted(verdict: u32) -> Result<(), Refusal> {
    match verdict {
        0 => Ok(()),
        _ => Err(Refusal::try_from(verdict).expect("a verdict of the library")),
    }
}
