//! The byte layout of `include/lomvuze.h`: all that converts to it and from it.

use crate::{Digest, Entry, Item, Opening, PublicInputs, Refusal, Sizes, R};
use alloc::vec;
use alloc::vec::Vec;
use lomvuze_calls::layout::{ItemLayout, DIGEST_BYTES, NUMBER_BYTES};

/// Numbers in four bytes each, lowest first.
///
/// ```
/// assert_eq!(lomvuze::numbers_to_bytes(&[258, 3]), [2, 1, 0, 0, 3, 0, 0, 0]);
/// ```
pub fn numbers_to_bytes(numbers: &[u32]) -> Vec<u8> {
    numbers.iter().flat_map(|number| number.to_le_bytes()).collect()
}

/// The numbers in a buffer.
///
/// # Errors
///
/// [`Refusal::Sizes`] where the length is no multiple of four.
///
/// ```
/// use lomvuze::{numbers_from_bytes, Refusal};
///
/// assert_eq!(numbers_from_bytes(&[2, 1, 0, 0, 3, 0, 0, 0]), Ok(vec![258, 3]));
/// assert_eq!(numbers_from_bytes(&[2, 1, 0]), Err(Refusal::Sizes));
/// ```
pub fn numbers_from_bytes(bytes: &[u8]) -> Result<Vec<u32>, Refusal> {
    bytes.chunks(NUMBER_BYTES).map(number).collect()
}

fn number(bytes: &[u8]) -> Result<u32, Refusal> {
    Ok(u32::from_le_bytes(exactly(bytes)?))
}

/// The bytes as an array of their length.
fn exactly<const LENGTH: usize>(bytes: &[u8]) -> Result<[u8; LENGTH], Refusal> {
    bytes.try_into().map_err(|_| Refusal::Sizes)
}

impl Entry {
    /// Row, column and value.
    pub fn to_bytes(&self) -> Vec<u8> {
        numbers_to_bytes(&[self.row, self.column, self.value])
    }

    /// Reads what [`to_bytes`](Entry::to_bytes) writes.
    ///
    /// # Errors
    ///
    /// [`Refusal::Sizes`] where there are not 12 bytes.
    ///
    /// ```
    /// use lomvuze::{Entry, Refusal};
    ///
    /// let entry = Entry { row: 0, column: 2, value: 1 };
    /// assert_eq!(Entry::from_bytes(&entry.to_bytes()), Ok(entry));
    /// assert_eq!(Entry::from_bytes(&[0; 13]), Err(Refusal::Sizes));
    ///
    /// // A list of entries that is stored without gaps.
    /// let stored = [entry.to_bytes(), entry.to_bytes()].concat();
    /// let list: Result<Vec<Entry>, Refusal> = stored.chunks(12).map(Entry::from_bytes).collect();
    /// assert_eq!(list, Ok(vec![entry, entry]));
    /// ```
    pub fn from_bytes(bytes: &[u8]) -> Result<Entry, Refusal> {
        match numbers_from_bytes(bytes)?[..] {
            [row, column, value] => Ok(Entry { row, column, value }),
            _ => Err(Refusal::Sizes),
        }
    }
}

impl Item {
    /// e, r, x and root.
    pub fn to_bytes(&self) -> Vec<u8> {
        let layout = ItemLayout { m: self.r.len() as u32, n: self.x.len() as u32 };
        let mut bytes = vec![0; layout.bytes()];
        bytes[layout.e()].copy_from_slice(&self.e.to_le_bytes());
        bytes[layout.r()].copy_from_slice(&self.r.to_bytes());
        bytes[layout.x()].copy_from_slice(&self.x.to_bytes());
        bytes[layout.root()].copy_from_slice(&self.root);
        bytes
    }

    /// Reads what [`to_bytes`](Item::to_bytes) writes.
    ///
    /// # Errors
    ///
    /// [`Refusal::Sizes`] where there are not [`Sizes::item_bytes`] bytes.
    ///
    /// ```
    /// use lomvuze::{Item, PublicInputs, Refusal, Sizes, R};
    ///
    /// let sizes = Sizes { m: 2, n: 2, k: 2 };
    /// let item = Item::new(R::from([5, 6]), PublicInputs::from([1, 34]), [7; 32]);
    /// assert_eq!(Item::from_bytes(sizes, &item.to_bytes()), Ok(item.clone()));
    /// assert_eq!(Item::from_bytes(Sizes { m: 1, ..sizes }, &item.to_bytes()), Err(Refusal::Sizes));
    /// ```
    pub fn from_bytes(sizes: Sizes, bytes: &[u8]) -> Result<Item, Refusal> {
        let layout = sizes.item_layout();
        if bytes.len() != layout.bytes() {
            return Err(Refusal::Sizes);
        }
        Ok(Item {
            e: number(&bytes[layout.e()])?,
            r: R::from_bytes(&bytes[layout.r()])?,
            x: PublicInputs::from_bytes(&bytes[layout.x()])?,
            root: exactly(&bytes[layout.root()])?,
        })
    }
}

impl Opening {
    /// The value and the digests of the path.
    pub fn to_bytes(&self) -> Vec<u8> {
        [&self.value.to_le_bytes()[..], self.path.as_flattened()].concat()
    }

    /// Reads what [`to_bytes`](Opening::to_bytes) writes.
    ///
    /// # Errors
    ///
    /// [`Refusal::Sizes`] where there are not [`Sizes::opening_bytes`] bytes.
    ///
    /// ```
    /// use lomvuze::{Opening, Refusal, Sizes};
    ///
    /// let sizes = Sizes { m: 0, n: 2, k: 2 };
    /// let opening = Opening { value: 258, path: vec![[7; 32]; 3] };
    /// assert_eq!(opening.to_bytes()[..5], [2, 1, 0, 0, 7]);
    /// assert_eq!(Opening::from_bytes(sizes, &opening.to_bytes()), Ok(opening.clone()));
    /// assert_eq!(Opening::from_bytes(Sizes { k: 4, ..sizes }, &opening.to_bytes()), Err(Refusal::Sizes));
    /// ```
    pub fn from_bytes(sizes: Sizes, bytes: &[u8]) -> Result<Opening, Refusal> {
        let layout = sizes.opening_layout();
        if bytes.len() != layout.bytes() {
            return Err(Refusal::Sizes);
        }
        let path: Result<Vec<Digest>, Refusal> =
            bytes[layout.siblings()].chunks(DIGEST_BYTES).map(exactly).collect();
        Ok(Opening { value: number(&bytes[layout.value()])?, path: path? })
    }
}

impl TryFrom<&[u8]> for Entry {
    type Error = Refusal;

    fn try_from(bytes: &[u8]) -> Result<Entry, Refusal> {
        Entry::from_bytes(bytes)
    }
}
