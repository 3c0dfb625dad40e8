//! The buffers that the library is passed.
//!
//! A list of numbers or entries is passed as it is, up to one more than check 2 permits. A list of parts that
//! have a length themselves is passed as an empty buffer where one has another length: its bytes would be those
//! of other parts. No call permits an empty buffer there.

use crate::sizes::{MAX_ENTRIES, MAX_K, MAX_L, MAX_M, MAX_N, MOST_NUMBERS};
use crate::{numbers_to_bytes, Circuit, Entry, Item, Opening, Sizes, Witness};
use alloc::vec;
use alloc::vec::Vec;

/// Points, r, x, one witness, positions or a quotient.
pub(crate) fn numbers_buffer(numbers: &[u32]) -> Vec<u8> {
    numbers_to_bytes(up_to(numbers, MOST_NUMBERS + 1))
}

/// The lists A, B and C.
pub(crate) fn circuit_buffers(circuit: &Circuit) -> [Vec<u8>; 3] {
    [&circuit.a, &circuit.b, &circuit.c]
        .map(|list| up_to(list, MAX_ENTRIES + 1).iter().flat_map(Entry::to_bytes).collect())
}

pub(crate) fn items_buffer(sizes: Sizes, items: &[Item]) -> Vec<u8> {
    let items = up_to(items, MAX_L + 1);
    let fits = |item: &Item| item.r.len() == sizes.m as usize && item.x.len() == sizes.n as usize;
    if sizes.m > MAX_M || sizes.n > MAX_N || !items.iter().all(fits) {
        return vec![];
    }
    items.iter().flat_map(Item::to_bytes).collect()
}

pub(crate) fn witnesses_buffer(sizes: Sizes, witnesses: &[Witness]) -> Vec<u8> {
    let witnesses = up_to(witnesses, MAX_L + 1);
    let fits = |witness: &Witness| witness.len() == sizes.k as usize;
    if sizes.k > MAX_K || !witnesses.iter().all(fits) {
        return vec![];
    }
    witnesses.iter().flat_map(Witness::to_bytes).collect()
}

/// The openings of each item and of the new one at t positions, one witness after the other.
pub(crate) fn opened_buffer(sizes: Sizes, t: usize, openings: &[impl AsRef<[Opening]>]) -> Vec<u8> {
    let openings: Vec<&[Opening]> = up_to(openings, MAX_L + 2).iter().map(AsRef::as_ref).collect();
    let fits = |opening: &Opening| opening.path.len() == sizes.depth();
    let all_fit = |of_one: &&[Opening]| of_one.len() == t && of_one.iter().all(fits);
    if sizes.k > MAX_K || t > MOST_NUMBERS || !openings.iter().all(all_fit) {
        return vec![];
    }
    openings.into_iter().flatten().flat_map(Opening::to_bytes).collect()
}

/// A buffer for the library to write: of the length that the sizes give, up to the one that the greatest sizes give.
/// Where they give more, check 2 refuses them.
pub(crate) fn output(sizes: Sizes, length: impl Fn(Sizes) -> usize) -> Vec<u8> {
    vec![0; length(sizes).min(length(Sizes::GREATEST))]
}

/// The first of a list.
fn up_to<T>(list: &[T], count: usize) -> &[T] {
    &list[..list.len().min(count)]
}
