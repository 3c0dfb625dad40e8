//! Numbers drawn by hash: the seed of items and quotient, the challenge, positions, and the r of an item.
//!
//! What is hashed begins with a byte that says what is drawn. A number goes in as four bytes, lowest first; the first
//! bytes of a digest, read lowest first too, are a number, of which a remainder is drawn.

use crate::checks::{element_bytes, item_bytes};
use crate::claims::Item;
use crate::field::{Element, P};
use crate::sha256::{digest, Digest};

fn number_bytes(number: usize) -> [u8; 4] {
    (number as u32).to_le_bytes()
}

/// The number in the first four bytes.
pub fn first_4_bytes(digest: &Digest) -> u32 {
    u32::from_le_bytes(digest[..4].try_into().expect("four bytes"))
}

/// The number in the first eight bytes.
pub fn first_8_bytes(digest: &Digest) -> u64 {
    u64::from_le_bytes(digest[..8].try_into().expect("eight bytes"))
}

// ---- What is hashed.

/// For the seed: the byte 0x02, m, n, k, l, every item (e, r, x, root) and the quotient's coefficients.
pub fn seed_message((m, n, k): (usize, usize, usize), items: &[Item], quotient: &[Element]) -> Vec<u8> {
    let mut message = vec![0x02];
    for size in [m, n, k, items.len()] {
        message.extend(number_bytes(size));
    }
    for item in items {
        message.extend(item_bytes(item));
    }
    message.extend(element_bytes(quotient));
    message
}

/// For the challenge: the byte 0x03 and the seed.
pub fn challenge_message(seed: &Digest) -> Vec<u8> {
    [&[0x03], &seed[..]].concat()
}

/// For position j: the byte 0x04, the seed, the challenge, the root of the new item, and j.
pub fn position_message(seed: &Digest, challenge: Element, root: &Digest, j: usize) -> Vec<u8> {
    [&[0x04], &seed[..], &element_bytes(&[challenge]), &root[..], &number_bytes(j)].concat()
}

/// For r_j: the byte 0x05, the root, x, and j.
pub fn r_message(root: &Digest, x: &[Element], j: usize) -> Vec<u8> {
    [&[0x05], &root[..], &element_bytes(x), &number_bytes(j)].concat()
}

// ---- What is drawn.

/// The seed of items and their quotient.
pub fn seed(sizes: (usize, usize, usize), items: &[Item], quotient: &[Element]) -> Digest {
    digest(&seed_message(sizes, items, quotient))
}

/// The challenge for l items: l plus a remainder modulo p - l.
pub fn challenge(l: usize, seed: &Digest) -> Element {
    let drawn = first_8_bytes(&digest(&challenge_message(seed)));
    Element::reduce(l as u64 + drawn % (P as u64 - l as u64))
}

/// Position j: a remainder modulo 4k.
pub fn position(k: usize, seed: &Digest, challenge: Element, root: &Digest, j: usize) -> u32 {
    first_4_bytes(&digest(&position_message(seed, challenge, root, j))) % (4 * k as u32)
}

/// r_j: a remainder modulo p.
pub fn r(root: &Digest, x: &[Element], j: usize) -> Element {
    Element::reduce(first_8_bytes(&digest(&r_message(root, x, j))))
}
