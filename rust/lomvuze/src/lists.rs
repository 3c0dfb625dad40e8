//! Lists of numbers: a type for each kind, so that none is passed in the place of another.

use crate::{numbers_from_bytes, numbers_to_bytes, Refusal};
use alloc::collections::BTreeSet;
use alloc::vec::{IntoIter, Vec};
use core::fmt;
use core::ops::{Deref, DerefMut};
use core::slice::Iter;

macro_rules! lists {
    ($($(#[$doc:meta])* $name:ident;)*) => {$(
        $(#[$doc])*
        #[derive(Clone, PartialEq, Eq, PartialOrd, Ord, Hash, Debug, Default)]
        pub struct $name(Vec<u32>);

        impl $name {
            /// The numbers in four bytes each, lowest first.
            pub fn to_bytes(&self) -> Vec<u8> {
                numbers_to_bytes(self)
            }

            /// Reads what `to_bytes` writes, of any count.
            ///
            /// # Errors
            ///
            /// [`Refusal::Sizes`] where the length is no multiple of four.
            pub fn from_bytes(bytes: &[u8]) -> Result<$name, Refusal> {
                numbers_from_bytes(bytes).map($name)
            }
        }

        impl From<Vec<u32>> for $name {
            fn from(numbers: Vec<u32>) -> $name {
                $name(numbers)
            }
        }

        impl From<&[u32]> for $name {
            fn from(numbers: &[u32]) -> $name {
                $name(numbers.to_vec())
            }
        }

        impl<const COUNT: usize> From<[u32; COUNT]> for $name {
            fn from(numbers: [u32; COUNT]) -> $name {
                $name(numbers.to_vec())
            }
        }

        impl<const COUNT: usize> From<&[u32; COUNT]> for $name {
            fn from(numbers: &[u32; COUNT]) -> $name {
                $name(numbers.to_vec())
            }
        }

        impl From<$name> for Vec<u32> {
            fn from(list: $name) -> Vec<u32> {
                list.0
            }
        }

        impl FromIterator<u32> for $name {
            fn from_iter<I: IntoIterator<Item = u32>>(numbers: I) -> $name {
                $name(numbers.into_iter().collect())
            }
        }

        impl TryFrom<&[u8]> for $name {
            type Error = Refusal;

            fn try_from(bytes: &[u8]) -> Result<$name, Refusal> {
                $name::from_bytes(bytes)
            }
        }

        impl Deref for $name {
            type Target = [u32];

            fn deref(&self) -> &[u32] {
                &self.0
            }
        }

        impl DerefMut for $name {
            fn deref_mut(&mut self) -> &mut [u32] {
                &mut self.0
            }
        }

        impl AsRef<[u32]> for $name {
            fn as_ref(&self) -> &[u32] {
                self
            }
        }

        impl IntoIterator for $name {
            type Item = u32;
            type IntoIter = IntoIter<u32>;

            fn into_iter(self) -> IntoIter<u32> {
                self.0.into_iter()
            }
        }

        impl<'a> IntoIterator for &'a $name {
            type Item = &'a u32;
            type IntoIter = Iter<'a, u32>;

            fn into_iter(self) -> Iter<'a, u32> {
                self.0.iter()
            }
        }

        impl PartialEq<[u32]> for $name {
            fn eq(&self, numbers: &[u32]) -> bool {
                **self == *numbers
            }
        }

        impl PartialEq<Vec<u32>> for $name {
            fn eq(&self, numbers: &Vec<u32>) -> bool {
                self.0 == *numbers
            }
        }

        impl<const COUNT: usize> PartialEq<[u32; COUNT]> for $name {
            fn eq(&self, numbers: &[u32; COUNT]) -> bool {
                **self == *numbers
            }
        }

        impl fmt::Display for $name {
            fn fmt(&self, out: &mut fmt::Formatter) -> fmt::Result {
                fmt::Debug::fmt(&self.0, out)
            }
        }
    )*};
}

lists! {
    /// The evaluation points of the code: 4k different elements, of which number i gives the value at position i; or
    /// none, which stands for the [built-in](Points::built_in) ones. Every call of a chain is lent the same.
    ///
    /// ```
    /// use lomvuze::{encode, Points, Refusal, Sizes, Witness, P};
    ///
    /// fn main() -> Result<(), Refusal> {
    ///     let (sizes, witness) = (Sizes { m: 0, n: 2, k: 2 }, Witness::from([2, 3]));
    ///     let points = Points::from([0, 1, 2, 3, 4, 5, 6, P - 1]);
    ///     assert_eq!(encode(sizes, &points, &witness)?.code, [2, 5, 8, 11, 14, 17, 20, P - 1]);
    ///
    ///     let repeated = Points::from([0, 1, 2, 3, 4, 5, 6, 0]);
    ///     assert_eq!(encode(sizes, &repeated, &witness), Err(Refusal::Points));
    ///     Ok(())
    /// }
    /// ```
    Points;

    /// r of an item: m elements, which give the weights of the rows. It is [drawn](crate::draw_r) or picked once x and
    /// root are fixed, and not picked by whoever hands them in.
    R;

    /// x of an item, the public inputs: n elements, of which the first is 1.
    PublicInputs;

    /// A witness: k elements.
    ///
    /// ```
    /// use lomvuze::Witness;
    ///
    /// let mut witness = Witness::from([2, 3]);
    /// witness[1] += 2;
    /// assert_eq!(witness, [2, 5]);
    /// assert_eq!(witness.to_string(), "[2, 5]");
    /// assert_eq!(Witness::from_bytes(&witness.to_bytes()), Ok(witness));
    /// ```
    Witness;

    /// The quotient of a fold: (l − 1) × (m + 1) elements, the coefficient of X^0 first.
    Quotient;

    /// The positions at which a fold is opened: 1 to 4k numbers below 4k, of which some may be equal. Those that are
    /// [drawn](crate::draw_positions) repeat.
    Positions;
}

impl Points {
    /// The points of the library: point i is g^i, where g = 31^((p − 1) / 4k). Lent by hand they give the same,
    /// but a codeword at points that are lent takes longer.
    ///
    /// ```
    /// use lomvuze::Points;
    ///
    /// assert_eq!(Points::built_in(), []);
    /// ```
    pub fn built_in() -> Points {
        Points::default()
    }
}

impl Positions {
    /// How many different positions there are. A verdict rests on k at least, and what many challenges show on the same k in
    /// each fold.
    ///
    /// ```
    /// use lomvuze::Positions;
    ///
    /// assert_eq!(Positions::from([0, 7, 0]).count_different(), 2);
    /// ```
    pub fn count_different(&self) -> usize {
        self.iter().collect::<BTreeSet<_>>().len()
    }
}

/// The number at which items are folded: l to p − 1. It is [drawn](crate::draw_challenge) or picked once items and
/// quotient are fixed, and not picked by whoever made them.
///
/// ```
/// use lomvuze::Challenge;
///
/// let challenge = Challenge::from(1_000_003);
/// assert_eq!(challenge.to_string(), "1000003");
/// assert_eq!(u32::from(challenge), 1_000_003);
/// ```
#[derive(Clone, Copy, PartialEq, Eq, PartialOrd, Ord, Hash, Debug)]
pub struct Challenge(u32);

impl From<u32> for Challenge {
    fn from(number: u32) -> Challenge {
        Challenge(number)
    }
}

impl From<Challenge> for u32 {
    fn from(challenge: Challenge) -> u32 {
        challenge.0
    }
}

impl fmt::Display for Challenge {
    fn fmt(&self, out: &mut fmt::Formatter) -> fmt::Result {
        self.0.fmt(out)
    }
}
