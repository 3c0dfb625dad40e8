//! What drawing a challenge gives.

use crate::{Challenge, Digest};
use core::fmt;

/// A challenge and its seed, from [`draw_challenge`](crate::draw_challenge).
#[derive(Clone, Copy, PartialEq, Eq, Hash, Debug)]
#[non_exhaustive]
pub struct Drawn {
    /// The digest that the challenge was drawn from.
    pub seed: Seed,
    /// The challenge.
    pub challenge: Challenge,
}

/// The digest of sizes, items and quotient, from which a challenge and then the positions are drawn.
///
/// [`draw_challenge`](crate::draw_challenge) gives it. Who verifies a fold draws it, from the items and the quotient that
/// are verified: any bytes make a seed, and nothing tests whose digest they are. One that was stored or sent is compared
/// with the drawn one.
///
/// ```
/// use lomvuze::{draw_challenge, Digest, Item, PublicInputs, Quotient, Refusal, Seed, Sizes, R};
///
/// fn main() -> Result<(), Refusal> {
///     let item = Item::new(R::default(), PublicInputs::from([1, 6]), [7; 32]);
///     let drawn = draw_challenge(Sizes { m: 0, n: 2, k: 2 }, &[item], &Quotient::default())?;
///     let stored: Digest = *drawn.seed.as_bytes();
///     assert_eq!(drawn.seed.to_string()[..4], format!("{:02x}{:02x}", stored[0], stored[1]));
///     assert_eq!(Seed::from(stored), drawn.seed);
///     assert_ne!(Seed::from([7; 32]), drawn.seed);
///     Ok(())
/// }
/// ```
///
/// Seed and root are both digests, and none is taken for the other:
///
/// ```compile_fail
/// use lomvuze::{draw_positions, Challenge, Seed, Sizes};
///
/// let (root, seed) = ([7; 32], Seed::from([8; 32]));
/// let _ = draw_positions(Sizes { m: 0, n: 2, k: 2 }, 2, 8, Challenge::from(3), &root, &seed);
/// ```
#[derive(Clone, Copy, PartialEq, Eq, Hash, Debug)]
pub struct Seed(Digest);

impl Seed {
    /// The bytes of the digest.
    pub fn as_bytes(&self) -> &Digest {
        &self.0
    }
}

impl From<Digest> for Seed {
    fn from(digest: Digest) -> Seed {
        Seed(digest)
    }
}

impl fmt::Display for Seed {
    /// 64 lower-case hexadecimal digits.
    fn fmt(&self, out: &mut fmt::Formatter) -> fmt::Result {
        self.0.iter().try_for_each(|byte| write!(out, "{byte:02x}"))
    }
}
