//! Codewords and openings of witnesses.

use super::count;
use crate::buffers::{numbers_buffer, opened_buffer, output};
use crate::refusal::accepted;
use crate::sizes::MOST_NUMBERS;
use crate::{
    numbers_from_bytes, Digest, Encoded, Opening, Points, Positions, Refusal, Sizes, Witness, MAX_L,
};
use alloc::vec::Vec;
use lomvuze_verdicts as library;

/// The codeword of a witness and the root of the tree over it. The m and n of the sizes are not looked at.
///
/// The codeword has at position i the sum over j of w_j × (point i)^j. The tree is that of RFC 6962, section 2.1, with
/// SHA-256: a leaf is the byte 0, a position and the value there, in four bytes each, lowest first; an inner node is the
/// byte 1 and the digests of its two children.
///
/// # Errors
///
/// The first of these checks that fails:
/// - [`Refusal::Sizes`], also where there are not k numbers, or neither no points nor 4k
/// - [`Refusal::Element`]
/// - [`Refusal::Points`]
///
/// # Example
///
/// ```
/// use lomvuze::{encode, Points, Refusal, Sizes, Witness, P};
///
/// fn main() -> Result<(), Refusal> {
///     let (sizes, witness) = (Sizes { m: 0, n: 2, k: 2 }, Witness::from([2, 3]));
///     let encoded = encode(sizes, &Points::built_in(), &witness)?;
///     assert_eq!(encoded.code.len(), 8);
///     assert_eq!((encoded.code[0], encoded.code[4]), (5, P - 1)); // 2 + 3 and 2 - 3
///
///     let at_others = encode(sizes, &Points::from([10, 11, 12, 13, 14, 15, 16, 17]), &witness)?;
///     assert_eq!(at_others.code, [32, 35, 38, 41, 44, 47, 50, 53]);
///     assert_ne!(at_others.root, encoded.root);
///     Ok(())
/// }
/// ```
pub fn encode(sizes: Sizes, points: &Points, witness: &Witness) -> Result<Encoded, Refusal> {
    let (mut code, mut root) = (output(sizes, Sizes::codeword_bytes), Digest::default());
    let (points, w) = (numbers_buffer(points), numbers_buffer(witness));
    accepted(library::encode(sizes.k, &points, &w, &mut code, &mut root))?;
    Ok(Encoded { code: numbers_from_bytes(&code)?, root })
}

/// The openings of one witness's codeword at up to 4k positions, in the order of the positions. The m and n of the sizes are
/// not looked at.
///
/// At least k of the positions are different ([`Positions::count_different`]), the same k in every fold of a list, and not
/// picked by whoever made it: 0 to k − 1 will do. Or they are [drawn](crate::draw_positions), once the new item is fixed.
///
/// # Errors
///
/// The first of these checks that fails:
/// - [`Refusal::Sizes`], also where there are not k numbers, or neither no points nor 4k
/// - [`Refusal::Element`]
/// - [`Refusal::Points`]
/// - [`Refusal::Position`]
///
/// # Example
///
/// ```
/// use lomvuze::{encode, open, Points, Positions, Refusal, Sizes, Witness};
///
/// fn main() -> Result<(), Refusal> {
///     let sizes = Sizes { m: 0, n: 2, k: 2 };
///     let (points, witness) = (Points::built_in(), Witness::from([2, 3]));
///     let openings = open(sizes, &points, &witness, &Positions::from([0, 7]))?;
///     assert_eq!(openings.len(), 2);
///     assert_eq!((openings[0].value, openings[0].path.len()), (5, 3));
///     assert_eq!(openings[1].value, encode(sizes, &points, &witness)?.code[7]);
///
///     assert_eq!(open(sizes, &points, &witness, &Positions::from([8])), Err(Refusal::Position));
///     Ok(())
/// }
/// ```
pub fn open(
    sizes: Sizes,
    points: &Points,
    witness: &Witness,
    positions: &Positions,
) -> Result<Vec<Opening>, Refusal> {
    let t = positions.len().min(MOST_NUMBERS);
    let mut openings = output(sizes, |sizes| sizes.openings_bytes(t));
    let (points, w, places) = (numbers_buffer(points), numbers_buffer(witness), numbers_buffer(positions));
    accepted(library::open(sizes.k, count(positions), &points, &w, &places, &mut openings))?;
    parts(sizes, &openings)
}

/// The openings of l items and the new one in the order in which `lomvuze_verify` reads them in C: position by
/// position and, within one, item by item. It is for a service that sends them there; [`verify`](crate::verify)
/// puts them in this order itself. The m and n of the sizes are not looked at.
///
/// `openings` has, for each item and last for the new item, what [`open`] returned for its witness at the
/// positions. What the openings hold is not tested.
///
/// # Errors
///
/// [`Refusal::Sizes`], also where not all have openings at as many positions.
///
/// # Example
///
/// ```
/// use lomvuze::{interleave, open, Points, Positions, Refusal, Sizes, Witness};
///
/// fn main() -> Result<(), Refusal> {
///     let sizes = Sizes { m: 0, n: 2, k: 2 };
///     let (points, positions) = (Points::built_in(), Positions::from([0, 7, 4]));
///     let item = open(sizes, &points, &Witness::from([2, 3]), &positions)?;
///     let new_item = open(sizes, &points, &Witness::from([6, 7]), &positions)?;
///
///     let ordered = interleave(sizes, &[&item[..], &new_item])?;
///     assert_eq!(ordered.len(), 6);
///     assert_eq!([&ordered[0], &ordered[1], &ordered[2]], [&item[0], &new_item[0], &item[1]]);
///     let bytes: Vec<u8> = ordered.iter().flat_map(|opening| opening.to_bytes()).collect();
///     assert_eq!(bytes.len(), sizes.all_openings_bytes(1, 3));
///
///     assert_eq!(interleave(sizes, &[&item[..], &new_item[1..]]), Err(Refusal::Sizes));
///     Ok(())
/// }
/// ```
pub fn interleave(sizes: Sizes, openings: &[impl AsRef<[Opening]>]) -> Result<Vec<Opening>, Refusal> {
    let t = openings.first().map_or(0, |of_one| count(of_one.as_ref()));
    parts(sizes, &in_order(sizes, count(openings).saturating_sub(1), t, openings)?)
}

/// The openings of l items and the new one at t positions in the verifier's order, as bytes.
pub(super) fn in_order(
    sizes: Sizes,
    l: u32,
    t: u32,
    openings: &[impl AsRef<[Opening]>],
) -> Result<Vec<u8>, Refusal> {
    let (items, positions) = (l as usize, t as usize);
    let opened = opened_buffer(sizes, positions, openings);
    let mut ordered =
        output(sizes, |sizes| sizes.all_openings_bytes(items.min(MAX_L), positions.min(MOST_NUMBERS)));
    accepted(library::interleave(sizes.k, l, t, &opened, &mut ordered))?;
    Ok(ordered)
}

fn parts(sizes: Sizes, openings: &[u8]) -> Result<Vec<Opening>, Refusal> {
    openings.chunks(sizes.opening_bytes()).map(|opening| Opening::from_bytes(sizes, opening)).collect()
}
