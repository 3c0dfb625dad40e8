//! What the calls take and return, apart from lists of numbers.

use crate::refusal::accepted;
use crate::{PublicInputs, Quotient, Refusal, Sizes, Witness, R};
use alloc::vec::Vec;
use lomvuze_calls::layout::DIGEST_BYTES;

/// A SHA-256 digest.
pub type Digest = [u8; DIGEST_BYTES];

/// A value at a place of one of a circuit's lists. Entries are ordered as a list has them.
#[derive(Clone, Copy, PartialEq, Eq, PartialOrd, Ord, Hash, Debug)]
pub struct Entry {
    /// Below 2^m.
    pub row: u32,
    /// Below n + k: the public inputs first, then the witness.
    pub column: u32,
    /// An element.
    pub value: u32,
}

impl From<(u32, u32, u32)> for Entry {
    /// From row, column and value.
    fn from((row, column, value): (u32, u32, u32)) -> Entry {
        Entry { row, column, value }
    }
}

/// A circuit: with z = x followed by the witness, row j holds when (Az)_j × (Bz)_j = (Cz)_j.
///
/// Each list has up to [`MAX_ENTRIES`](crate::MAX_ENTRIES) entries, strictly ascending by row and then
/// column.
#[derive(Clone, PartialEq, Eq, Hash, Debug, Default)]
pub struct Circuit {
    /// The list A.
    pub a: Vec<Entry>,
    /// The list B.
    pub b: Vec<Entry>,
    /// The list C.
    pub c: Vec<Entry>,
}

impl Circuit {
    /// From entries, which may be given as (row, column, value).
    ///
    /// ```
    /// use lomvuze::{Circuit, Entry};
    ///
    /// // Two rows: w0 × w1 = x1 and (w0 + w1) × x0 = x2, where x0 is 1. The columns are x0, x1, x2, w0 and w1.
    /// let circuit = Circuit::new(
    ///     [(0, 3, 1), (1, 3, 1), (1, 4, 1)],
    ///     [(0, 4, 1), (1, 0, 1)],
    ///     [(0, 1, 1), (1, 2, 1)],
    /// );
    /// assert_eq!(circuit.a[2], Entry { row: 1, column: 4, value: 1 });
    /// assert!(circuit.a.is_sorted());
    /// ```
    pub fn new<E: Into<Entry>>(
        a: impl IntoIterator<Item = E>,
        b: impl IntoIterator<Item = E>,
        c: impl IntoIterator<Item = E>,
    ) -> Circuit {
        Circuit { a: entries(a), b: entries(b), c: entries(c) }
    }
}

fn entries(list: impl IntoIterator<Item = impl Into<Entry>>) -> Vec<Entry> {
    list.into_iter().map(Into::into).collect()
}

/// A claim about a witness. Its value is the sum over the rows j of weight_j × ((Az)_j × (Bz)_j − (Cz)_j),
/// where weight_j is the product over the bits b of j, 0 to m − 1, of r_b where the bit is 1 and of 1 − r_b
/// where it is 0. It holds when its value is e. It matches when its root is that of the witness's codeword.
#[derive(Clone, PartialEq, Eq, Hash, Debug)]
#[non_exhaustive]
pub struct Item {
    /// The value that is claimed.
    pub e: u32,
    /// m elements, which give the weights of the rows.
    pub r: R,
    /// The public inputs: n elements, of which the first is 1.
    pub x: PublicInputs,
    /// The root of the tree over the witness's codeword.
    pub root: Digest,
}

impl Item {
    /// A fresh item: its e is 0.
    pub fn new(r: R, x: PublicInputs, root: Digest) -> Item {
        Item { e: 0, r, x, root }
    }

    /// Whether e is 0. It is in an item that [`cast`](crate::cast) gave. With any other e, an item that holds is no
    /// statement that the rows hold: it is the result of a fold, or somebody has made it up.
    ///
    /// ```
    /// use lomvuze::{decide, encode, Circuit, Item, Points, PublicInputs, Refusal, Sizes, Witness, P, R};
    ///
    /// fn main() -> Result<(), Refusal> {
    ///     // One row: w0 × w1 = x1. And 4 × 5 = 21, which no row says, with the e that makes it hold.
    ///     let sizes = Sizes { m: 0, n: 2, k: 2 };
    ///     let circuit = Circuit::new([(0, 2, 1)], [(0, 3, 1)], [(0, 1, 1)]);
    ///     let (points, witness) = (Points::built_in(), Witness::from([4, 5]));
    ///     let root = encode(sizes, &points, &witness)?.root;
    ///     let mut item = Item::new(R::default(), PublicInputs::from([1, 21]), root);
    ///     item.e = P - 1;
    ///     decide(sizes, &points, &circuit, &item, &witness)?;
    ///     assert!(!item.is_fresh());
    ///     Ok(())
    /// }
    /// ```
    pub fn is_fresh(&self) -> bool {
        self.e == 0
    }
}

/// A codeword and its root, from [`encode`](crate::encode).
#[derive(Clone, PartialEq, Eq, Hash, Debug)]
#[non_exhaustive]
pub struct Encoded {
    /// 4k elements.
    pub code: Vec<u32>,
    /// The root of the tree over them.
    pub root: Digest,
}

/// A fold, from [`fold`](crate::fold).
#[derive(Clone, PartialEq, Eq, Hash, Debug)]
#[non_exhaustive]
pub struct Folded {
    /// The quotient of the items.
    pub quotient: Quotient,
    /// The new item.
    pub item: Item,
    /// Its witness.
    pub witness: Witness,
}

/// The answer of [`verify`](crate::verify): its verdict, and the number of SHA-256 blocks that it processed.
///
/// The blocks are those that FIPS 180-4 gives, with padding, for the messages hashed up to the verdict. An opening has one
/// leaf, of one block, and log2(4k) inner nodes, of two blocks each. Openings are hashed position by position and, within
/// one, item by item, the new item last, each of them whole, up to the first that does not lead to its root:
///
/// | verdict | blocks |
/// |---|---|
/// | accepted | [`Sizes::verify_blocks`] |
/// | [`Refusal::Combination`] | the same: all openings are hashed |
/// | [`Refusal::Opening`] | (j + 1) × (1 + 2 × log2(4k)), where opening j, from 0 and in that order, is the first that fails |
/// | any other refusal | 0 |
///
/// They are never more than [`Sizes::verify_blocks`]. The theorems `accepted-blocks`, `refused-by-9`, `refused-by-8`,
/// `refused-before-8` and `blocks-at-most` (`crates/theory/proofs/BlockCount.antt`) say this of the proved call.
#[derive(Clone, Copy, PartialEq, Eq, Hash, Debug)]
#[must_use = "the verdict says whether the fold is accepted"]
pub struct Verified {
    /// Whether the fold is accepted, or the first check that fails.
    pub verdict: Result<(), Refusal>,
    /// The blocks that were processed up to the verdict.
    pub blocks: u64,
}

impl Verified {
    /// From what the library returns: 64 times the blocks, plus the verdict.
    pub(crate) fn from_answer(answer: u64) -> Verified {
        Verified { verdict: accepted((answer % 64) as u32), blocks: answer / 64 }
    }
}

/// What a sheet says, from [`read_sheet`](crate::read_sheet).
#[derive(Clone, PartialEq, Eq, Hash, Debug)]
#[non_exhaustive]
pub struct Sheet {
    /// The sizes of circuit, items and witnesses.
    pub sizes: Sizes,
    /// The circuit of all items.
    pub circuit: Circuit,
    /// 1 to [`MAX_PAIRS`](crate::MAX_PAIRS) items. A fold takes up to [`MAX_L`](crate::MAX_L).
    pub items: Vec<Item>,
    /// Their witnesses, each at the place of its item.
    pub witnesses: Vec<Witness>,
}

/// The value of a codeword at a position, and the way from there to the root. The position is hashed with the value,
/// and is no part of the opening.
#[derive(Clone, PartialEq, Eq, Hash, Debug)]
pub struct Opening {
    /// The value.
    pub value: u32,
    /// log2(4k) digests: the siblings from the leaf upwards.
    pub path: Vec<Digest>,
}
