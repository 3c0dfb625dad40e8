//! Sizes, their limits, and the lengths that they give.

use lomvuze_calls::layout::{ItemLayout, OpeningLayout, NUMBER_BYTES};

/// The count of elements: an element is a number below p.
pub const P: u32 = 2013265921;
/// The greatest m.
pub const MAX_M: u32 = 6;
/// The greatest n.
pub const MAX_N: u32 = 64;
/// The greatest k.
pub const MAX_K: u32 = 64;
/// The greatest l, the count of items of a fold.
pub const MAX_L: usize = 8;
/// The greatest count of entries in each list of a circuit.
pub const MAX_ENTRIES: usize = 1024;
/// The greatest count of pairs of item and witness in a sheet.
pub const MAX_PAIRS: usize = 64;
/// The greatest length of a sheet, in bytes. To have a longer one refused, one byte more is enough.
pub const MAX_SHEET: usize = 60_000;

/// The length of an entry: row, column and value.
pub(crate) const ENTRY_BYTES: usize = 3 * NUMBER_BYTES;

/// The most numbers that a list of numbers may have: points or positions, for the greatest k.
pub(crate) const MOST_NUMBERS: usize = 4 * MAX_K as usize;

/// The sizes of a circuit and its claims: every call but [`read_sheet`](crate::read_sheet), which gives them, takes them
/// first. A call looks at those alone that it has a use for: its page says which, where these are not all.
///
/// The methods give the lengths in bytes of what [`Item::to_bytes`](crate::Item::to_bytes) and its like write, what
/// verifying hashes, and the bound on the challenges of a false list; the calls need none of them from their caller.
/// Which sizes are permitted is for the calls to say. For others the lengths follow the same rules, up to [`usize::MAX`].
///
/// ```
/// use lomvuze::Sizes;
///
/// let sizes = Sizes { m: 2, n: 4, k: 8 };
/// assert_eq!((sizes.depth(), sizes.item_bytes(), sizes.quotient_bytes(8)), (5, 60, 84));
/// assert_eq!(sizes.verify_blocks(8, 16), 1584);
/// ```
#[derive(Clone, Copy, PartialEq, Eq, Hash, Debug)]
pub struct Sizes {
    /// A circuit has 2^m rows, and an item has m elements r.
    pub m: u32,
    /// Public inputs of a claim, the leading 1 among them.
    pub n: u32,
    /// Numbers of a witness. Its codeword has 4k.
    pub k: u32,
}

impl Sizes {
    /// The greatest that are permitted.
    pub(crate) const GREATEST: Sizes = Sizes { m: MAX_M, n: MAX_N, k: MAX_K };

    /// Where the parts of an item lie.
    pub(crate) fn item_layout(self) -> ItemLayout {
        ItemLayout { m: self.m, n: self.n }
    }

    /// Where the parts of an opening lie.
    pub(crate) fn opening_layout(self) -> OpeningLayout {
        OpeningLayout { k: self.k }
    }

    /// The levels of the tree over a codeword, log2(4k): the digests of an opening's path.
    pub fn depth(self) -> usize {
        self.opening_layout().depth()
    }

    /// Points that are lent.
    pub fn points_bytes(self) -> usize {
        self.codeword_bytes()
    }

    /// A witness.
    pub fn witness_bytes(self) -> usize {
        NUMBER_BYTES * self.k as usize
    }

    /// l witnesses.
    pub fn witnesses_bytes(self, l: usize) -> usize {
        l.saturating_mul(self.witness_bytes())
    }

    /// A codeword.
    pub fn codeword_bytes(self) -> usize {
        4 * self.witness_bytes()
    }

    /// An item.
    pub fn item_bytes(self) -> usize {
        self.item_layout().bytes()
    }

    /// l items.
    pub fn items_bytes(self, l: usize) -> usize {
        l.saturating_mul(self.item_bytes())
    }

    /// The quotient of l items.
    pub fn quotient_bytes(self, l: usize) -> usize {
        l.saturating_sub(1).saturating_mul(NUMBER_BYTES * (self.m as usize + 1))
    }

    /// An opening.
    pub fn opening_bytes(self) -> usize {
        self.opening_layout().bytes()
    }

    /// The openings of one witness at t positions.
    pub fn openings_bytes(self, t: usize) -> usize {
        t.saturating_mul(self.opening_bytes())
    }

    /// The openings of l items and the new item at t positions.
    pub fn all_openings_bytes(self, l: usize, t: usize) -> usize {
        l.saturating_add(1).saturating_mul(self.openings_bytes(t))
    }

    /// The SHA-256 blocks that [`verify`](crate::verify) processes for l items at t positions where it accepts, which
    /// is also the most that it processes: t × (l + 1) × (1 + 2 × log2(4k)). 0 where k, l or t is not permitted: then
    /// it hashes nothing.
    ///
    /// ```
    /// use lomvuze::Sizes;
    ///
    /// let greatest = Sizes { m: 6, n: 64, k: 64 };
    /// assert_eq!(greatest.verify_blocks(8, 256), 39_168);
    /// assert_eq!([greatest.verify_blocks(9, 256), greatest.verify_blocks(8, 257)], [0, 0]);
    /// ```
    pub fn verify_blocks(self, l: usize, t: usize) -> u64 {
        let k_is_permitted = self.k.is_power_of_two() && (2..=MAX_K).contains(&self.k);
        if !k_is_permitted || !(1..=MAX_L).contains(&l) || !(1..=4 * self.k as usize).contains(&t) {
            return 0;
        }
        (t * (l + 1) * (1 + 2 * self.depth())) as u64
    }

    /// (l − 1) × (m + 2): the most challenges, of the p − l that are permitted for l items, at which a list with a false item
    /// can pass [`verify`](crate::verify) and [`decide`](crate::decide), for one quotient and one set of k different positions,
    /// but for a SHA-256 collision (`docs/OBLIGATIONS.md` of the repository, "What an accepted fold establishes", has all
    /// conditions). So one accepted fold of two items or more does not say that they hold. 0 for l = 0.
    ///
    /// ```
    /// use lomvuze::Sizes;
    ///
    /// assert_eq!(Sizes { m: 6, n: 64, k: 64 }.challenge_bound(8), 56);
    /// assert_eq!(Sizes { m: 0, n: 2, k: 2 }.challenge_bound(1), 0);
    /// ```
    pub fn challenge_bound(self, l: usize) -> u64 {
        (l.saturating_sub(1) as u64).saturating_mul(u64::from(self.m) + 2)
    }
}
