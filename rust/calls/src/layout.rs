//! Where the parts of an item and of an opening lie, as the bytes of a buffer: what `calls.txt` says by its lines `layout`.

use core::ops::Range;

/// The bytes of a number, and of an element.
pub const NUMBER_BYTES: usize = 4;

/// The bytes of a digest.
pub const DIGEST_BYTES: usize = 32;

/// So many numbers, from a place on.
const fn numbers(start: usize, count: u32) -> Range<usize> {
    start..start + count as usize * NUMBER_BYTES
}

/// The places of an item's parts, for sizes m and n.
///
/// ```
/// use lomvuze_calls::layout::ItemLayout;
///
/// let item = ItemLayout { m: 2, n: 4 };
/// assert_eq!((item.e(), item.r(), item.x(), item.root()), (0..4, 4..12, 12..28, 28..60));
/// assert_eq!(item.bytes(), 60);
/// ```
#[derive(Clone, Copy, PartialEq, Eq, Debug)]
pub struct ItemLayout {
    pub m: u32,
    pub n: u32,
}

impl ItemLayout {
    pub const fn e(self) -> Range<usize> {
        numbers(0, 1)
    }

    pub const fn r(self) -> Range<usize> {
        numbers(self.e().end, self.m)
    }

    pub const fn x(self) -> Range<usize> {
        numbers(self.r().end, self.n)
    }

    /// The first number of x, which is 1.
    pub const fn first_input(self) -> Range<usize> {
        numbers(self.x().start, 1)
    }

    pub const fn root(self) -> Range<usize> {
        let start = self.x().end;
        start..start + DIGEST_BYTES
    }

    /// The length of an item.
    pub const fn bytes(self) -> usize {
        self.root().end
    }
}

/// The places of an opening's parts, for a witness of k numbers.
///
/// ```
/// use lomvuze_calls::layout::OpeningLayout;
///
/// let opening = OpeningLayout { k: 2 };
/// assert_eq!((opening.value(), opening.siblings(), opening.bytes()), (0..4, 4..100, 100));
/// ```
#[derive(Clone, Copy, PartialEq, Eq, Debug)]
pub struct OpeningLayout {
    pub k: u32,
}

impl OpeningLayout {
    /// The levels of the tree over a codeword, log2(4k); 0 for k = 0.
    pub const fn depth(self) -> usize {
        match self.k.checked_ilog2() {
            Some(log) => log as usize + 2,
            None => 0,
        }
    }

    pub const fn value(self) -> Range<usize> {
        numbers(0, 1)
    }

    /// From the leaf upwards.
    pub const fn siblings(self) -> Range<usize> {
        let start = self.value().end;
        start..start + self.depth() * DIGEST_BYTES
    }

    /// The length of an opening.
    pub const fn bytes(self) -> usize {
        self.siblings().end
    }
}
