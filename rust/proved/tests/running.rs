//! The proved running hash beside the reference.

use lomvuze_proved as proved;
use lomvuze_reference::sha256::{hash, Digest};
use lomvuze_reference::tree;
use lomvuze_trials::Random;

const MARK: Digest = [0xAA; 32];

/// The digest of a message that is fed in by pieces.
fn by_pieces(message: &[u8], step: usize) -> Digest {
    let mut out = MARK;
    assert_eq!(proved::running(message, step, &mut out), 0);
    out
}

/// Every length up to five blocks, by pieces of every length up to two blocks.
#[test]
fn short_messages() {
    let mut random = Random::new(1);
    for length in 0..=320 {
        let message = random.bytes(length);
        let digest = hash(&message).digest;
        for step in 1..=130 {
            assert_eq!(by_pieces(&message, step), digest, "{length} bytes by {step}");
        }
    }
}

/// Pieces of one byte, around a block, of any length, and one that holds the whole message.
#[test]
fn long_messages() {
    let mut random = Random::new(2);
    let lengths: Vec<usize> = (0..100).map(|_| 300 + random.below(20_000)).collect();
    for length in lengths.into_iter().chain([4095, 4096, 4097, 65_536, 100_003, 1 << 20]) {
        let message = random.bytes(length);
        let digest = hash(&message).digest;
        let any = 1 + random.below(length);
        for step in [1, 63, 64, 65, 100, any, length - 1, length, length + 1, usize::MAX] {
            assert_eq!(by_pieces(&message, step), digest, "{length} bytes by {step}");
        }
    }
}

#[test]
fn inner_nodes() {
    let mut random = Random::new(3);
    for _ in 0..5_000 {
        let (left, right) = (random.digest(), random.digest());
        assert_eq!(proved::running_node(&left, &right), tree::node(&left, &right));
    }
}

/// Pieces of no bytes, and a length in bits of 2^64 or more, which does not fit the padding.
#[test]
fn refusals_write_nothing() {
    let mut out = MARK;
    for length in [0, 1, 64, 65, 1000] {
        assert_eq!(proved::running(&vec![7; length], 0, &mut out), 1, "{length} bytes");
    }
    for length in [1 << 61, (1 << 61) + 1, isize::MAX as usize, usize::MAX] {
        for step in [0, 1, 64, 1 << 61, usize::MAX] {
            assert_eq!(proved::running_of_length(length, step, &mut out), 1, "{length} bytes by {step}");
        }
    }
    assert_eq!(out, MARK);
}
