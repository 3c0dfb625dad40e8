//! Folds of items: made and verified.

use super::count;
use super::witnesses::in_order;
use crate::buffers::{circuit_buffers, items_buffer, numbers_buffer, output, witnesses_buffer};
use crate::refusal::accepted;
use crate::{
    Challenge, Circuit, Folded, Item, Opening, Points, Positions, Quotient, Refusal, Sizes, Verified,
    Witness, MAX_L,
};
use alloc::vec::Vec;
use core::slice::from_ref;
use lomvuze_verdicts as library;

/// A buffer for the quotient of so many items.
fn quotient_output(sizes: Sizes, l: usize) -> Vec<u8> {
    output(sizes, |sizes| sizes.quotient_bytes(l.min(MAX_L)))
}

/// The quotient of up to 8 items, each with its witness at the same place. [`fold`] gives it too; here it is there
/// before a challenge is [drawn](crate::draw_challenge) from it or picked.
///
/// # Errors
///
/// The first of these checks that fails:
/// - [`Refusal::Sizes`], also where there are not as many witnesses as items, or neither no points nor 4k
/// - [`Refusal::Element`]
/// - [`Refusal::Points`]
/// - [`Refusal::Circuit`]
/// - [`Refusal::FirstInput`], of every item
/// - [`Refusal::Root`]
/// - [`Refusal::Claim`]
///
/// # Example
///
/// ```
/// use lomvuze::{cast, quotient, Circuit, Points, PublicInputs, Refusal, Sizes, Witness, R};
///
/// fn main() -> Result<(), Refusal> {
///     // One row: w0 × w1 = x1.
///     let sizes = Sizes { m: 0, n: 2, k: 2 };
///     let circuit = Circuit::new([(0, 2, 1)], [(0, 3, 1)], [(0, 1, 1)]);
///     let (points, r) = (Points::built_in(), R::default());
///     let mut witnesses = [Witness::from([2, 3]), Witness::from([4, 5])];
///     let items = [
///         cast(sizes, &points, &circuit, &r, &PublicInputs::from([1, 6]), &witnesses[0])?,
///         cast(sizes, &points, &circuit, &r, &PublicInputs::from([1, 20]), &witnesses[1])?,
///     ];
///     assert_eq!(quotient(sizes, &points, &circuit, &items, &witnesses)?, [4]);
///     assert_eq!(quotient(sizes, &points, &circuit, &items[..1], &witnesses[..1])?, []);
///
///     // The roots of the items are those of codewords at their own points.
///     let others = Points::from([0, 1, 2, 3, 4, 5, 6, 7]);
///     assert_eq!(quotient(sizes, &others, &circuit, &items, &witnesses), Err(Refusal::Root));
///     witnesses.reverse();
///     assert_eq!(quotient(sizes, &points, &circuit, &items, &witnesses), Err(Refusal::Root));
///     Ok(())
/// }
/// ```
pub fn quotient(
    sizes: Sizes,
    points: &Points,
    circuit: &Circuit,
    items: &[Item],
    witnesses: &[Witness],
) -> Result<Quotient, Refusal> {
    let Sizes { m, n, k } = sizes;
    let [a, b, c] = circuit_buffers(circuit);
    let (l, packed, wits) = (count(items), items_buffer(sizes, items), witnesses_buffer(sizes, witnesses));
    let (points, mut quotient) = (numbers_buffer(points), quotient_output(sizes, items.len()));
    accepted(library::quotient(m, n, k, l, &points, &a, &b, &c, &packed, &wits, &mut quotient))?;
    Quotient::from_bytes(&quotient)
}

/// Folds up to 8 items, each with its witness at the same place, at a challenge: their quotient, the new item
/// and the new witness.
///
/// The challenge, l to p − 1, is [drawn](crate::draw_challenge) or picked once items and [`quotient`] are fixed, and not
/// picked by whoever made them.
///
/// # Errors
///
/// The first of these checks that fails:
/// - [`Refusal::Sizes`], also where there are not as many witnesses as items, or neither no points nor 4k
/// - [`Refusal::Element`]
/// - [`Refusal::Points`]
/// - [`Refusal::Circuit`]
/// - [`Refusal::FirstInput`], of every item
/// - [`Refusal::Challenge`]
/// - [`Refusal::Root`]
/// - [`Refusal::Claim`]
///
/// # Example
///
/// ```
/// use lomvuze::{cast, fold, Challenge, Circuit, Points, PublicInputs, Refusal, Sizes, Witness, R};
///
/// fn main() -> Result<(), Refusal> {
///     // One row: w0 × w1 = x1.
///     let sizes = Sizes { m: 0, n: 2, k: 2 };
///     let circuit = Circuit::new([(0, 2, 1)], [(0, 3, 1)], [(0, 1, 1)]);
///     let (points, r) = (Points::built_in(), R::default());
///     let witnesses = [Witness::from([2, 3]), Witness::from([4, 5])];
///     let items = [
///         cast(sizes, &points, &circuit, &r, &PublicInputs::from([1, 6]), &witnesses[0])?,
///         cast(sizes, &points, &circuit, &r, &PublicInputs::from([1, 20]), &witnesses[1])?,
///     ];
///     let folded = fold(sizes, Challenge::from(3), &points, &circuit, &items, &witnesses)?;
///     assert_eq!(folded.quotient, [4]);
///     assert_eq!(folded.item.e, 24);
///     assert_eq!(folded.item.x, [1, 48]);
///     assert_eq!(folded.witness, [8, 9]);
///
///     let at_a_node = fold(sizes, Challenge::from(1), &points, &circuit, &items, &witnesses);
///     assert_eq!(at_a_node, Err(Refusal::Challenge));
///     Ok(())
/// }
/// ```
pub fn fold(
    sizes: Sizes,
    challenge: Challenge,
    points: &Points,
    circuit: &Circuit,
    items: &[Item],
    witnesses: &[Witness],
) -> Result<Folded, Refusal> {
    let Sizes { m, n, k } = sizes;
    let [a, b, c] = circuit_buffers(circuit);
    let (l, packed, wits) = (count(items), items_buffer(sizes, items), witnesses_buffer(sizes, witnesses));
    let mut quotient = quotient_output(sizes, items.len());
    let (mut item, mut wit) = (output(sizes, Sizes::item_bytes), output(sizes, Sizes::witness_bytes));
    let (to_quotient, to_item, to_wit) = (&mut quotient, &mut item, &mut wit);
    let (at, points) = (challenge.into(), numbers_buffer(points));
    accepted(library::fold(
        m,
        n,
        k,
        l,
        at,
        &points,
        &a,
        &b,
        &c,
        &packed,
        &wits,
        to_quotient,
        to_item,
        to_wit,
    ))?;
    Ok(Folded {
        quotient: Quotient::from_bytes(&quotient)?,
        item: Item::from_bytes(sizes, &item)?,
        witness: Witness::from_bytes(&wit)?,
    })
}

/// Verifies a fold of up to 8 items, and counts the SHA-256 blocks that this takes: see [`Verified`]. It sees neither
/// circuit nor witness: only together with [`decide`](crate::decide) of the same new item it is a verdict on the items, and
/// not that each of them holds: [`Sizes::challenge_bound`] says at how many challenges a list with a false item can pass.
/// Whether challenge and positions are drawn ones is not tested: who verifies draws them first.
///
/// `openings` has, for each item and last for the new item, what [`open`](crate::open) returned for its witness at
/// the positions.
///
/// # Errors
///
/// The verdict is the first of these checks that fails:
/// - [`Refusal::Sizes`], also where there are not openings of each item and the new one at each position
/// - [`Refusal::Element`]
/// - [`Refusal::FirstInput`], of every item but the new one
/// - [`Refusal::Challenge`]
/// - [`Refusal::Position`]
/// - [`Refusal::NewItem`], also where the new item's first input is not 1
/// - [`Refusal::Opening`]
/// - [`Refusal::Combination`]
///
/// # Example
///
/// ```
/// use lomvuze::{cast, fold, open, verify, Verified};
/// use lomvuze::{Challenge, Circuit, Folded, Points, Positions, PublicInputs, Refusal, Sizes, Witness, R};
///
/// fn main() -> Result<(), Refusal> {
///     // One row: w0 × w1 = x1.
///     let sizes = Sizes { m: 0, n: 2, k: 2 };
///     let circuit = Circuit::new([(0, 2, 1)], [(0, 3, 1)], [(0, 1, 1)]);
///     let (points, witness) = (Points::built_in(), Witness::from([2, 3]));
///     let items = [cast(sizes, &points, &circuit, &R::default(), &PublicInputs::from([1, 6]), &witness)?];
///
///     let challenge = Challenge::from(2);
///     let Folded { quotient, item, witness: new_witness, .. } =
///         fold(sizes, challenge, &points, &circuit, &items, std::slice::from_ref(&witness))?;
///     let positions = Positions::from([1, 5]);
///     let mut openings =
///         [open(sizes, &points, &witness, &positions)?, open(sizes, &points, &new_witness, &positions)?];
///     let verified = verify(sizes, challenge, &items, &positions, &quotient, &item, &openings);
///     assert_eq!(verified, Verified { verdict: Ok(()), blocks: 28 });
///     assert_eq!(verified.blocks, sizes.verify_blocks(1, 2));
///
///     // The openings of position 1 are hashed, and then the item's at position 5, which is refused.
///     openings[0][1].value += 1;
///     let changed = verify(sizes, challenge, &items, &positions, &quotient, &item, &openings);
///     assert_eq!(changed, Verified { verdict: Err(Refusal::Opening), blocks: 3 * 7 });
///     Ok(())
/// }
/// ```
pub fn verify(
    sizes: Sizes,
    challenge: Challenge,
    items: &[Item],
    positions: &Positions,
    quotient: &Quotient,
    new_item: &Item,
    openings: &[impl AsRef<[Opening]>],
) -> Verified {
    let Sizes { m, n, k } = sizes;
    let (l, t, at) = (count(items), count(positions), challenge.into());
    let (items, new_item) = (items_buffer(sizes, items), items_buffer(sizes, from_ref(new_item)));
    // Openings that cannot be put in order fail check 2 here too, as an empty buffer.
    let openings = in_order(sizes, l, t, openings).unwrap_or_default();
    let (positions, quotient) = (numbers_buffer(positions), numbers_buffer(quotient));
    let answer = library::verify(m, n, k, l, t, at, &items, &positions, &quotient, &new_item, &openings);
    Verified::from_answer(answer)
}
