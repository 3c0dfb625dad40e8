//! Challenges, positions and r, drawn by hash.

use super::{count, number};
use crate::buffers::{items_buffer, numbers_buffer, output};
use crate::refusal::accepted;
use crate::sizes::MOST_NUMBERS;
use crate::{Challenge, Digest, Drawn, Item, Positions, PublicInputs, Quotient, Refusal, Seed, Sizes, R};
use alloc::vec;
use lomvuze_calls::layout::NUMBER_BYTES;
use lomvuze_verdicts as library;

/// Draws the challenge of up to 8 items from their bytes and those of the [`quotient`](crate::quotient).
///
/// Who verifies a fold draws its challenge from the items and the quotient that are verified, and takes it from nobody.
/// [What drawing settles](crate#what-the-caller-sees-to), and what it does not, is among what the caller sees to.
///
/// The seed is the SHA-256 digest of the byte 2, m, n, k, l, the items and the quotient. The challenge is l plus a
/// remainder modulo p − l: that of the first eight bytes of the digest of the byte 3 and the seed. Numbers are hashed in
/// four bytes each, and all bytes are read lowest first.
///
/// # Errors
///
/// The first of these checks that fails:
/// - [`Refusal::Sizes`], also where there are not (l − 1) × (m + 1) numbers in the quotient
/// - [`Refusal::Element`]
/// - [`Refusal::FirstInput`], of every item
///
/// # Example
///
/// ```
/// use lomvuze::{cast, draw_challenge, fold, quotient};
/// use lomvuze::{Challenge, Circuit, Points, PublicInputs, Quotient, Refusal, Sizes, Witness, R};
///
/// fn main() -> Result<(), Refusal> {
///     // One row: w0 × w1 = x1.
///     let sizes = Sizes { m: 0, n: 2, k: 2 };
///     let circuit = Circuit::new([(0, 2, 1)], [(0, 3, 1)], [(0, 1, 1)]);
///     let (points, r) = (Points::built_in(), R::default());
///     let witnesses = [Witness::from([2, 3]), Witness::from([4, 5])];
///     let items = [
///         cast(sizes, &points, &circuit, &r, &PublicInputs::from([1, 6]), &witnesses[0])?,
///         cast(sizes, &points, &circuit, &r, &PublicInputs::from([1, 20]), &witnesses[1])?,
///     ];
///     let quotient = quotient(sizes, &points, &circuit, &items, &witnesses)?;
///     let drawn = draw_challenge(sizes, &items, &quotient)?;
///     assert_eq!(drawn.challenge, Challenge::from(282522532));
///     fold(sizes, drawn.challenge, &points, &circuit, &items, &witnesses)?;
///
///     // Another quotient gives another challenge, and one of another length is refused.
///     assert_ne!(draw_challenge(sizes, &items, &Quotient::from([5]))?.challenge, drawn.challenge);
///     assert_eq!(draw_challenge(sizes, &items, &Quotient::default()), Err(Refusal::Sizes));
///     Ok(())
/// }
/// ```
pub fn draw_challenge(sizes: Sizes, items: &[Item], quotient: &Quotient) -> Result<Drawn, Refusal> {
    let Sizes { m, n, k } = sizes;
    let (l, items, quotient) = (count(items), items_buffer(sizes, items), numbers_buffer(quotient));
    let (mut seed, mut challenge) = (Digest::default(), [0; NUMBER_BYTES]);
    accepted(library::draw_challenge(m, n, k, l, &items, &quotient, &mut seed, &mut challenge))?;
    Ok(Drawn { seed: seed.into(), challenge: u32::from_le_bytes(challenge).into() })
}

/// Draws t positions for a fold of l items at a challenge, from its seed and the root of its new item. The m and n of the
/// sizes are not looked at.
///
/// Who verifies a fold draws its positions with the seed and the challenge that [`draw_challenge`] gave for its items and
/// its quotient, and with the root of the new item that is verified.
/// [What drawing settles](crate#what-the-caller-sees-to), and what it does not, is among what the caller sees to.
///
/// Drawn positions repeat, and a verdict rests on k different ones at least. So draw more than k, up to 4k, and count
/// ([`Positions::count_different`]). Of random positions, 4k are too few in one draw of two million where k is 2, and more
/// seldom where k is greater; k are too few in one draw of eight where k is 2, and nearly always where k is 64. Position j
/// is the same whatever t is.
///
/// Position j, from 0, is the first four bytes, modulo 4k, of the SHA-256 digest of the byte 4, the seed, the challenge,
/// the root and j. Numbers are hashed in four bytes each, and all bytes are read lowest first.
///
/// # Errors
///
/// The first of these checks that fails:
/// - [`Refusal::Sizes`], also where t is 0 or more than 4k
/// - [`Refusal::Challenge`]
///
/// # Example
///
/// ```
/// use lomvuze::{draw_challenge, draw_positions};
/// use lomvuze::{Challenge, Item, PublicInputs, Quotient, Refusal, Sizes, R};
///
/// fn main() -> Result<(), Refusal> {
///     let (sizes, root) = (Sizes { m: 0, n: 2, k: 8 }, [7; 32]);
///     let items = [Item::new(R::default(), PublicInputs::from([1, 6]), root)];
///     let drawn = draw_challenge(sizes, &items, &Quotient::default())?;
///
///     // The fold of one item has that item's root.
///     let draw = |t| draw_positions(sizes, items.len(), t, drawn.challenge, &drawn.seed, &root);
///     let positions = draw(32)?;
///     assert!(positions.iter().all(|position| *position < 32));
///     assert!((8..32).contains(&positions.count_different()));
///     assert_eq!(draw(3)?, positions[..3]);
///
///     assert_eq!(draw(33), Err(Refusal::Sizes));
///     let at_a_node = draw_positions(sizes, 1, 32, Challenge::from(0), &drawn.seed, &root);
///     assert_eq!(at_a_node, Err(Refusal::Challenge));
///     Ok(())
/// }
/// ```
pub fn draw_positions(
    sizes: Sizes,
    l: usize,
    t: usize,
    challenge: Challenge,
    seed: &Seed,
    root: &Digest,
) -> Result<Positions, Refusal> {
    let mut positions = vec![0; NUMBER_BYTES * t.min(MOST_NUMBERS)];
    let (l, t, at) = (number(l), number(t), challenge.into());
    accepted(library::draw_positions(sizes.k, l, t, at, seed.as_bytes(), root, &mut positions))?;
    Positions::from_bytes(&positions)
}

/// Draws r of an item from its root and its x, before it is [`cast`](crate::cast). The k of the sizes is not looked at.
///
/// Who is handed an item compares its r with the one drawn from its root and its x, or puts that in.
/// [What drawing settles](crate#what-the-caller-sees-to), and what it does not, is among what the caller sees to.
///
/// Number j of r, from 0, is the first eight bytes, modulo p, of the SHA-256 digest of the byte 5, the root, x and j.
/// Numbers are hashed in four bytes each, and all bytes are read lowest first.
///
/// # Errors
///
/// The first of these checks that fails:
/// - [`Refusal::Sizes`], also where there are not n numbers in x
/// - [`Refusal::Element`]
/// - [`Refusal::FirstInput`]
///
/// # Example
///
/// ```
/// use lomvuze::{cast, draw_r, encode, Circuit, Points, PublicInputs, Refusal, Sizes, Witness, R};
///
/// fn main() -> Result<(), Refusal> {
///     // Two rows: w0 × w1 = x1 and (w0 + w1) × x0 = x2, where x0 is 1.
///     let sizes = Sizes { m: 1, n: 3, k: 2 };
///     let circuit = Circuit::new(
///         [(0, 3, 1), (1, 3, 1), (1, 4, 1)],
///         [(0, 4, 1), (1, 0, 1)],
///         [(0, 1, 1), (1, 2, 1)],
///     );
///     let (points, witness) = (Points::built_in(), Witness::from([2, 3]));
///     let root = encode(sizes, &points, &witness)?.root;
///     let cast_drawn = |x: [u32; 3]| {
///         let x = PublicInputs::from(x);
///         cast(sizes, &points, &circuit, &draw_r(sizes, &root, &x)?, &x, &witness)
///     };
///     let item = cast_drawn([1, 6, 5])?;
///     assert_eq!(item.r, draw_r(sizes, &item.root, &item.x)?);
///
///     // 2 + 3 is not 6. At r = 0 row 1 has no weight, at the drawn r it has.
///     let six = PublicInputs::from([1, 6, 6]);
///     assert!(cast(sizes, &points, &circuit, &R::from([0]), &six, &witness).is_ok());
///     assert_eq!(cast_drawn([1, 6, 6]), Err(Refusal::Claim));
///     assert_eq!(draw_r(sizes, &root, &PublicInputs::from([1, 6])), Err(Refusal::Sizes));
///     Ok(())
/// }
/// ```
pub fn draw_r(sizes: Sizes, root: &Digest, x: &PublicInputs) -> Result<R, Refusal> {
    let mut r = output(sizes, |sizes| NUMBER_BYTES * sizes.m as usize);
    accepted(library::draw_r(sizes.m, sizes.n, root, &numbers_buffer(x), &mut r))?;
    R::from_bytes(&r)
}
