//! Numbers in buffers, and checks 2 to 6 and 13 of the bytes as they lie, where k is 64. The reference reads a buffer into
//! lists of its own before it checks what it says.

use super::field::P;
use lomvuze_calls::layout::{ItemLayout, OpeningLayout};

pub const K: usize = 64;
pub const OPENING: OpeningLayout = OpeningLayout { k: K as u32 };

pub type Circuit<'a> = [&'a [u8]; 3];

// ---- Numbers in buffers

pub fn get(buffer: &[u8], i: usize) -> u32 {
    u32::from_le_bytes(buffer[4 * i..4 * i + 4].try_into().unwrap())
}

pub fn numbers(buffer: &[u8]) -> impl DoubleEndedIterator<Item = u32> + '_ {
    buffer.chunks_exact(4).map(|bytes| get(bytes, 0))
}

pub fn load(buffer: &[u8], out: &mut [u32]) {
    out.iter_mut().zip(numbers(buffer)).for_each(|(place, number)| *place = number);
}

pub fn store(numbers: &[u32], out: &mut [u8]) {
    for (bytes, number) in out.chunks_exact_mut(4).zip(numbers) {
        bytes.copy_from_slice(&number.to_le_bytes());
    }
}

// ---- Checks

pub fn check(number: u32, passes: bool) -> Result<(), u32> {
    if passes {
        Ok(())
    } else {
        Err(number)
    }
}

/// The answer of a call: 0, or the number of the first check that fails.
pub fn verdict(call: impl FnOnce() -> Result<(), u32>) -> u32 {
    call().err().unwrap_or(0)
}

/// 2, of m and n.
pub fn claim_sizes(m: u32, n: u32) -> bool {
    m <= 6 && (1..=64).contains(&n)
}

/// 2, of all sizes of items and the count of items.
pub fn sizes(m: u32, n: u32, k: u32, l: u32) -> bool {
    claim_sizes(m, n) && k as usize == K && (1..=8).contains(&l)
}

/// 2, of k and the count of positions.
pub fn position_sizes(k: u32, t: u32) -> bool {
    k as usize == K && (1..=4 * K as u32).contains(&t)
}

/// 2, of lists of entries.
pub fn circuit_fits(circuit: Circuit) -> bool {
    circuit.iter().all(|list| list.len().is_multiple_of(12) && list.len() <= 12 * 1024)
}

/// 3, of a buffer of numbers.
pub fn below(buffer: &[u8]) -> bool {
    numbers(buffer).all(|number| number < P)
}

/// 3, of lists of entries.
pub fn circuit_below(circuit: Circuit) -> bool {
    circuit.iter().all(|list| list.chunks_exact(12).all(|entry| get(entry, 2) < P))
}

/// 3, of items.
pub fn items_below(layout: ItemLayout, items: &[u8]) -> bool {
    items.chunks_exact(layout.bytes()).all(|item| below(&item[..layout.root().start]))
}

/// 4, of a list of entries.
pub fn in_order(rows: u32, columns: u32, list: &[u8]) -> bool {
    let place = |entry: &[u8]| (get(entry, 0), get(entry, 1));
    list.chunks_exact(12).all(|entry| place(entry).0 < rows && place(entry).1 < columns)
        && list.chunks_exact(12).zip(list.chunks_exact(12).skip(1)).all(|(a, b)| place(a) < place(b))
}

/// 13, of items.
pub fn leading_ones(layout: ItemLayout, items: &[u8]) -> bool {
    items.chunks_exact(layout.bytes()).all(|item| item[layout.first_input()] == 1u32.to_le_bytes())
}

/// 5.
pub fn challenge_fits(l: u32, challenge: u32) -> bool {
    l <= challenge && challenge < P
}

/// 6.
pub fn positions_below(positions: &[u8]) -> bool {
    numbers(positions).all(|position| position < 4 * K as u32)
}
