//! The rows of OpenSSL's SHA-256 beside that in plain Rust: messages, and the tree over 256 leaves, hashed one node after the
//! other.
//!
//! OpenSSL reads which instructions it may use from the environment as it is loaded. So the program starts itself twice for
//! these rows: as OpenSSL finds the processor, and with its SHA instructions masked.

use crate::openssl::OpenSsl;
use crate::plain::{field, tree};
use crate::table::Line;
use lomvuze_proved as proved;
use lomvuze_reference::sha256::{self, Digest};
use lomvuze_reference::tree::node_message;
use std::hint::black_box;

/// The argument with which the program measures these rows, once.
pub const ARGUMENT: &str = "openssl";

pub const VARIABLE: &str = "OPENSSL_ia32cap";

/// Bit 29 of the word EBX of CPUID leaf 7, taken away.
pub const NO_SHA: &str = ":~0x20000000";

/// Compares and measures all rows, with so many rounds each.
pub fn measure(rounds: usize) {
    let openssl = OpenSsl::load().expect("libcrypto.so.3 (Debian: libssl3) is not there");
    let three_calls = "`SHA256_Init`, `SHA256_Update`, `SHA256_Final`";
    measure_way(rounds, "`SHA256`", |message| openssl.one_shot(message));
    measure_way(rounds, three_calls, |message| openssl.three_calls(message));
}

/// The rows of one way to hash. All digests are those of the proved library too.
fn measure_way(rounds: usize, way: &str, digest: impl Fn(&[u8]) -> Digest) {
    for (name, length) in [("65 bytes", 65), ("1 MiB", 1 << 20)] {
        let message: Vec<u8> = (0..length).map(|i| (i * 7 + i / 256) as u8).collect();
        assert_eq!(digest(&message), proved::digest(&message).0);
        let row = Line { name: &format!("{name}, {way}"), rounds };
        row.compare(1, || digest(black_box(&message)), || sha256::digest(black_box(&message)));
    }
    let values: [u32; 256] = std::array::from_fn(|i| field::mul(1987654321, 1000 + i as u32));
    let mut root = [0; 32];
    assert_eq!(proved::root(&values, 8, &mut root), 0);
    assert_eq!(root_by(&digest, &values), root);
    let row = Line { name: &format!("tree over 256 leaves, {way}"), rounds };
    row.compare(1, || root_by(&digest, black_box(&values)), || tree::root(black_box(&values)));
}

/// The root of the tree over these values, where `digest` hashes a message.
fn root_by(digest: &impl Fn(&[u8]) -> Digest, values: &[u32]) -> Digest {
    root_of_entries(digest, &tree::entries(values))
}

/// Without memory for a leaf's message, unlike the reference's: its time would be much beside OpenSSL's.
fn root_of_entries(digest: &impl Fn(&[u8]) -> Digest, entries: &[[u8; 8]]) -> Digest {
    match entries {
        [entry] => {
            let mut message = [0; 9];
            message[1..].copy_from_slice(entry);
            digest(&message)
        }
        _ => {
            let (left, right) = entries.split_at(entries.len() / 2);
            digest(&node_message(&root_of_entries(digest, left), &root_of_entries(digest, right)))
        }
    }
}
