//! The tree over a codeword, by the reference's hashes. All openings are written from one tree; the reference hashes the
//! siblings anew for every position.

use super::checks::OPENING;
use lomvuze_reference::code;
use lomvuze_reference::field::Element;
use lomvuze_reference::sha256::Digest;
use lomvuze_reference::tree;

fn entry(position: usize, value: u32) -> [u8; 8] {
    code::entry(position, Element::new(value).expect("a number below p"))
}

/// The entries of the tree over these values.
pub fn entries(values: &[u32]) -> Vec<[u8; 8]> {
    values.iter().enumerate().map(|(position, value)| entry(position, *value)).collect()
}

pub fn root(values: &[u32]) -> Digest {
    tree::root(&entries(values))
}

/// All digests: the root at 1, and the children of n at 2n and 2n + 1.
fn nodes(values: &[u32; 256]) -> [Digest; 512] {
    let mut nodes = [[0; 32]; 512];
    for (i, value) in values.iter().enumerate() {
        nodes[256 + i] = tree::leaf(&entry(i, *value));
    }
    for n in (1..256).rev() {
        nodes[n] = tree::node(&nodes[2 * n], &nodes[2 * n + 1]);
    }
    nodes
}

/// Writes the openings of some positions, one after the other.
#[inline(never)]
pub fn openings(values: &[u32; 256], positions: impl Iterator<Item = usize>, out: &mut [u8]) {
    let nodes = nodes(values);
    for (position, opening) in positions.zip(out.chunks_exact_mut(OPENING.bytes())) {
        opening[OPENING.value()].copy_from_slice(&values[position].to_le_bytes());
        let mut n = 256 + position;
        for sibling in opening[OPENING.siblings()].as_chunks_mut().0 {
            *sibling = nodes[n ^ 1];
            n /= 2;
        }
    }
}
