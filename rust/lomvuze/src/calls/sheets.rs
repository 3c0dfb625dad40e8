//! Sheets of text.

use crate::buffers::output;
use crate::refusal::accepted;
use crate::sizes::ENTRY_BYTES;
use crate::{Circuit, Entry, Item, Refusal, Sheet, Sizes, Witness, MAX_ENTRIES, MAX_PAIRS};
use alloc::vec::Vec;
use lomvuze_verdicts as library;

/// The parts of one length that the library wrote at the front of a buffer.
fn front<T>(
    buffer: &[u8],
    length: usize,
    count: u32,
    part: impl Fn(&[u8]) -> Result<T, Refusal>,
) -> Result<Vec<T>, Refusal> {
    buffer.chunks(length).take(count as usize).map(part).collect()
}

/// Reads a sheet of any bytes: the text in which a registrar hands in a circuit with its items and witnesses.
///
/// Lines end in a newline, which the last one may lack, and one tab parts fields. In this order:
///
/// | line | how often | fields |
/// |---|---|---|
/// | `size` | once | m, n, k |
/// | `a`, then `b`, then `c` | any number of each | row, column, value |
/// | `item` and `wit` in turn | 1 to 64 pairs | `item`: e, r, x, and the root as 64 lower-case hexadecimal digits; `wit`: the witness |
/// | `end` | once, last | the count of pairs |
///
/// Numbers are decimal, without a needless leading zero, and at most 4294967295; a sheet has up to 60,000 bytes.
///
/// Whether an item is fresh ([`Item::is_fresh`]), whether its root is that of its witness and whether it holds is not
/// tested here. r is whoever wrote the sheet's own.
///
/// The library takes under 64 KiB of stack for it. What it writes to is on the heap.
///
/// # Errors
///
/// The first of these checks that fails:
/// - [`Refusal::Sheet`]
/// - [`Refusal::Sizes`], also where a line of an item or a witness does not have as many numbers as the sizes
///   give, or the last line does not have the count of the pairs
/// - [`Refusal::Element`]
/// - [`Refusal::Circuit`]
/// - [`Refusal::FirstInput`], of every item
///
/// # Example
///
/// ```
/// use lomvuze::{decide, encode, read_sheet, Circuit, Points, Refusal, Sheet, Sizes};
///
/// fn main() -> Result<(), Refusal> {
///     // One row, w0 × w1 = x1, and two items. Their roots are left open: zeros.
///     let text = "\
/// size 0 2 2
/// a 0 2 1
/// b 0 3 1
/// c 0 1 1
/// item 0 1 6 0000000000000000000000000000000000000000000000000000000000000000
/// wit 2 3
/// item 0 1 21 0000000000000000000000000000000000000000000000000000000000000000
/// wit 4 5
/// end 2
/// "
///     .replace(' ', "\t");
///     let Sheet { sizes, circuit, mut items, witnesses, .. } = read_sheet(text.as_bytes())?;
///     assert_eq!(sizes, Sizes { m: 0, n: 2, k: 2 });
///     assert_eq!(circuit, Circuit::new([(0, 2, 1)], [(0, 3, 1)], [(0, 1, 1)]));
///     assert_eq!(items[1].x, [1, 21]);
///     assert_eq!(witnesses[1], [4, 5]);
///
///     // No item is accepted without its root.
///     let points = Points::built_in();
///     assert_eq!(decide(sizes, &points, &circuit, &items[0], &witnesses[0]), Err(Refusal::Root));
///     for (item, witness) in items.iter_mut().zip(&witnesses) {
///         item.root = encode(sizes, &points, witness)?.root;
///     }
///     decide(sizes, &points, &circuit, &items[0], &witnesses[0])?;
///     let second = decide(sizes, &points, &circuit, &items[1], &witnesses[1]);
///     assert_eq!(second, Err(Refusal::Claim)); // 4 × 5 is 20
///
///     // A pair was lost on the way; a first input is not 1.
///     assert_eq!(read_sheet(text.replace("end\t2", "end\t3").as_bytes()), Err(Refusal::Sizes));
///     assert_eq!(read_sheet(text.replace("1\t21", "2\t21").as_bytes()), Err(Refusal::FirstInput));
///     Ok(())
/// }
/// ```
pub fn read_sheet(sheet: &[u8]) -> Result<Sheet, Refusal> {
    let greatest = |length: fn(Sizes) -> usize| output(Sizes::GREATEST, length);
    let [mut a, mut b, mut c] = [0; 3].map(|_| greatest(|_| ENTRY_BYTES * MAX_ENTRIES));
    let mut items = greatest(|sizes| sizes.items_bytes(MAX_PAIRS));
    let mut wits = greatest(|sizes| sizes.witnesses_bytes(MAX_PAIRS));
    let mut read = [0; 7];
    accepted(library::read_sheet(sheet, &mut a, &mut b, &mut c, &mut items, &mut wits, &mut read))?;
    let [m, n, k, of_a, of_b, of_c, pairs] = read;
    let sizes = Sizes { m, n, k };
    Ok(Sheet {
        sizes,
        circuit: Circuit {
            a: front(&a, ENTRY_BYTES, of_a, Entry::from_bytes)?,
            b: front(&b, ENTRY_BYTES, of_b, Entry::from_bytes)?,
            c: front(&c, ENTRY_BYTES, of_c, Entry::from_bytes)?,
        },
        items: front(&items, sizes.item_bytes(), pairs, |item| Item::from_bytes(sizes, item))?,
        witnesses: front(&wits, sizes.witness_bytes(), pairs, Witness::from_bytes)?,
    })
}
