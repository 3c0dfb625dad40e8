//! The code: a witness of k numbers becomes a codeword of 4k values, one for each point.

use crate::field::{Element, P};
use crate::sha256::Digest;
use crate::tree;

/// The built-in points of the code for k witness numbers: point i is g^i, with g = 31^((p - 1) / 4k).
pub fn built_in_points(k: usize) -> Vec<Element> {
    let g = Element::reduce(31).pow((P as u64 - 1) / (4 * k as u64));
    (0..4 * k).map(|i| g.pow(i as u64)).collect()
}

/// The codeword of w at these points: at position i, the sum of w_j × (point i)^j.
pub fn codeword(points: &[Element], w: &[Element]) -> Vec<Element> {
    points.iter().map(|point| (0..w.len()).map(|j| w[j] * point.pow(j as u64)).sum()).collect()
}

/// The entry of a value: its position in four bytes, lowest first, followed by the value, likewise.
pub fn entry(position: usize, value: Element) -> [u8; 8] {
    let mut entry = [0; 8];
    entry[..4].copy_from_slice(&(position as u32).to_le_bytes());
    entry[4..].copy_from_slice(&value.number().to_le_bytes());
    entry
}

/// The entries of the tree over a codeword.
pub fn entries(codeword: &[Element]) -> Vec<[u8; 8]> {
    codeword.iter().enumerate().map(|(position, value)| entry(position, *value)).collect()
}

/// The root of the tree over a witness's codeword at these points.
pub fn root(points: &[Element], w: &[Element]) -> Digest {
    tree::root(&entries(&codeword(points, w)))
}
