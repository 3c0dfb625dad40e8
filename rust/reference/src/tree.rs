//! Hash trees over a list of entries: RFC 6962, section 2.1. An entry is a string of bytes; that of a value in a
//! codeword names its position ([`code::entry`](crate::code::entry)).

use crate::sha256::{digest, hash, Digest, Hashed};

/// What is hashed for a leaf: the byte 0x00 and the entry.
fn leaf_message(entry: &[u8]) -> Vec<u8> {
    [&[0x00], entry].concat()
}

/// What is hashed for an inner node: the byte 0x01 and the two child digests.
pub fn node_message(left: &Digest, right: &Digest) -> [u8; 65] {
    let mut message = [0x01; 65];
    message[1..33].copy_from_slice(left);
    message[33..].copy_from_slice(right);
    message
}

/// The hash of a leaf.
pub fn leaf(entry: &[u8]) -> Digest {
    digest(&leaf_message(entry))
}

/// The hash of an inner node.
pub fn node(left: &Digest, right: &Digest) -> Digest {
    digest(&node_message(left, right))
}

/// The largest power of two below n, for n of 2 or more.
fn split(n: usize) -> usize {
    let mut k = 1;
    while 2 * k < n {
        k *= 2;
    }
    k
}

/// MTH(entries): the root of the tree.
pub fn root<E: AsRef<[u8]>>(entries: &[E]) -> Digest {
    match entries {
        [] => digest(&[]),
        [entry] => leaf(entry.as_ref()),
        _ => {
            let (left, right) = entries.split_at(split(entries.len()));
            node(&root(left), &root(right))
        }
    }
}

/// PATH(position, entries): the sibling digests from the leaf upwards.
pub fn path<E: AsRef<[u8]>>(position: usize, entries: &[E]) -> Vec<Digest> {
    if entries.len() <= 1 {
        return vec![];
    }
    let k = split(entries.len());
    let (left, right) = entries.split_at(k);
    if position < k {
        [path(position, left), vec![root(right)]].concat()
    } else {
        [path(position - k, right), vec![root(left)]].concat()
    }
}

/// Where a path leads from an entry at a position, in a tree over a power of two of entries: the own digest is the
/// left child at level j where bit j of the position is 0. And the blocks of all messages hashed on the way.
pub fn leads_to(entry: &[u8], position: usize, path: &[Digest]) -> Hashed {
    let mut own = hash(&leaf_message(entry));
    for (level, sibling) in path.iter().enumerate() {
        let message = match position >> level & 1 {
            0 => node_message(&own.digest, sibling),
            _ => node_message(sibling, &own.digest),
        };
        let above = hash(&message);
        own = Hashed { digest: above.digest, blocks: own.blocks + above.blocks };
    }
    own
}
