//! The bytes of which a circuit's digest is made.

use lomvuze::{numbers_to_bytes, Circuit, Digest, Entry, Sizes};

/// The byte 6; m, n and k; and for each list the count of its entries and the entries. No other message that is hashed
/// begins with that byte.
pub fn bytes(sizes: Sizes, circuit: &Circuit) -> Vec<u8> {
    let mut bytes = vec![6];
    bytes.extend(numbers_to_bytes(&[sizes.m, sizes.n, sizes.k]));
    for list in [&circuit.a, &circuit.b, &circuit.c] {
        bytes.extend(numbers_to_bytes(&[list.len() as u32]));
        bytes.extend(list.iter().flat_map(Entry::to_bytes));
    }
    bytes
}

pub fn hex(digest: &Digest) -> String {
    digest.iter().map(|byte| format!("{byte:02x}")).collect()
}
