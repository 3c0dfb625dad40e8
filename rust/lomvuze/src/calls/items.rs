//! One item: cast and decided.

use crate::buffers::{circuit_buffers, items_buffer, numbers_buffer, output};
use crate::refusal::accepted;
use crate::{Circuit, Item, Points, PublicInputs, Refusal, Sizes, Witness, R};
use core::slice::from_ref;
use lomvuze_verdicts as library;

/// The item of a claim: e = 0, r and x as given, and the root of the witness's codeword. Its value has to be
/// 0, as it is for every r when every row of the circuit holds.
///
/// That its value is 0 at one r does not say that every row holds: r is [drawn](crate::draw_r) or picked once x and root
/// are fixed, and not picked by whoever hands them in.
///
/// # Errors
///
/// The first of these checks that fails:
/// - [`Refusal::Sizes`], also where there are not m numbers in r, n in x and k in the witness, or neither no points nor
///   4k
/// - [`Refusal::Element`]
/// - [`Refusal::Points`]
/// - [`Refusal::Circuit`]
/// - [`Refusal::FirstInput`]
/// - [`Refusal::Claim`]
///
/// # Example
///
/// ```
/// use lomvuze::{cast, encode, Circuit, Points, PublicInputs, Refusal, Sizes, Witness, R};
///
/// fn main() -> Result<(), Refusal> {
///     // One row: w0 × w1 = x1. It needs no r.
///     let sizes = Sizes { m: 0, n: 2, k: 2 };
///     let circuit = Circuit::new([(0, 2, 1)], [(0, 3, 1)], [(0, 1, 1)]);
///     let (points, r, witness) = (Points::built_in(), R::default(), Witness::from([2, 3]));
///     let item = cast(sizes, &points, &circuit, &r, &PublicInputs::from([1, 6]), &witness)?;
///     assert_eq!((item.e, item.root), (0, encode(sizes, &points, &witness)?.root));
///
///     let seven = cast(sizes, &points, &circuit, &r, &PublicInputs::from([1, 7]), &witness);
///     assert_eq!(seven, Err(Refusal::Claim));
///     let without_one = cast(sizes, &points, &circuit, &r, &PublicInputs::from([0, 6]), &witness);
///     assert_eq!(without_one, Err(Refusal::FirstInput));
///     let with_r = cast(sizes, &points, &circuit, &R::from([1]), &PublicInputs::from([1, 6]), &witness);
///     assert_eq!(with_r, Err(Refusal::Sizes));
///     Ok(())
/// }
/// ```
pub fn cast(
    sizes: Sizes,
    points: &Points,
    circuit: &Circuit,
    r: &R,
    x: &PublicInputs,
    witness: &Witness,
) -> Result<Item, Refusal> {
    let Sizes { m, n, k } = sizes;
    let [a, b, c] = circuit_buffers(circuit);
    let (r, x, w) = (numbers_buffer(r), numbers_buffer(x), numbers_buffer(witness));
    let (points, mut item) = (numbers_buffer(points), output(sizes, Sizes::item_bytes));
    accepted(library::cast(m, n, k, &points, &a, &b, &c, &r, &x, &w, &mut item))?;
    Item::from_bytes(sizes, &item)
}

/// Decides an item with its witness. Points and circuit are those that were agreed on, and the item, where it is the new
/// one of a fold, the very one that [`verify`](crate::verify) accepted.
///
/// # Errors
///
/// The first of these checks that fails:
/// - [`Refusal::Sizes`], also where there are not m numbers in the item's r, n in its x and k in the witness, or neither
///   no points nor 4k
/// - [`Refusal::Element`]
/// - [`Refusal::Points`]
/// - [`Refusal::Circuit`]
/// - [`Refusal::FirstInput`]
/// - [`Refusal::Root`]
/// - [`Refusal::Claim`]
///
/// # Example
///
/// ```
/// use lomvuze::{decide, encode, Circuit, Item, Points, PublicInputs, Refusal, Sizes, Witness, R};
///
/// fn main() -> Result<(), Refusal> {
///     // One row: w0 × w1 = x1.
///     let sizes = Sizes { m: 0, n: 2, k: 2 };
///     let circuit = Circuit::new([(0, 2, 1)], [(0, 3, 1)], [(0, 1, 1)]);
///     let (points, witness) = (Points::built_in(), Witness::from([4, 5]));
///     let root = encode(sizes, &points, &witness)?.root;
///     let item = Item::new(R::default(), PublicInputs::from([1, 20]), root);
///     decide(sizes, &points, &circuit, &item, &witness)?;
///
///     let false_one = Item::new(R::default(), PublicInputs::from([1, 21]), root);
///     assert_eq!(decide(sizes, &points, &circuit, &false_one, &witness), Err(Refusal::Claim));
///     let other = Witness::from([3, 7]);
///     assert_eq!(decide(sizes, &points, &circuit, &false_one, &other), Err(Refusal::Root));
///     Ok(())
/// }
/// ```
pub fn decide(
    sizes: Sizes,
    points: &Points,
    circuit: &Circuit,
    item: &Item,
    witness: &Witness,
) -> Result<(), Refusal> {
    let Sizes { m, n, k } = sizes;
    let [a, b, c] = circuit_buffers(circuit);
    let (item, w) = (items_buffer(sizes, from_ref(item)), numbers_buffer(witness));
    accepted(library::decide(m, n, k, &numbers_buffer(points), &a, &b, &c, &item, &w))
}
