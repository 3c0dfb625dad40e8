//! The proved SHA-256, with its count of blocks, leaf and inner node beside the reference.

use lomvuze_proved as proved;
use lomvuze_reference::sha256::{hash, Digest, Hashed};
use lomvuze_reference::tree;
use lomvuze_trials::Random;

const MARK: Digest = [0xAA; 32];

/// Digest and blocks of a message are those of the reference.
fn compare(message: &[u8]) {
    let Hashed { digest, blocks } = hash(message);
    assert_eq!(proved::digest(message), (digest, blocks), "{} bytes", message.len());
}

#[test]
fn short_messages() {
    let mut random = Random::new(1);
    for length in 0..=300 {
        (0..10).for_each(|_| compare(&random.bytes(length)));
    }
}

#[test]
fn long_messages() {
    let mut random = Random::new(2);
    for length in [1000, 4095, 4096, 4097, 65_535, 65_536, 100_003, 1 << 20] {
        compare(&random.bytes(length));
    }
    for _ in 0..200 {
        let length = 300 + random.below(20_000);
        compare(&random.bytes(length));
    }
    compare(&vec![b'a'; 1_000_000]);
}

/// By hand: the last length of one block and of two, and the first of the next.
#[test]
fn blocks() {
    let lengths = [0, 1, 9, 55, 56, 63, 64, 65, 119, 120, 183, 184, 1_000_000];
    let counts = lengths.map(|length| proved::digest(&vec![7; length]).1);
    assert_eq!(counts, [1, 1, 1, 1, 2, 2, 2, 2, 2, 3, 3, 4, 15_626]);
}

/// A length in bits of 2^64 or more does not fit the padding. Nothing is written.
#[test]
fn longer_messages_are_refused() {
    for length in [1 << 61, (1 << 61) + 1, isize::MAX as usize, usize::MAX] {
        let (mut out, mut blocks) = (MARK, 77);
        assert_eq!(proved::digest_of_length(length, &mut out, &mut blocks), 1, "{length} bytes");
        assert_eq!((out, blocks), (MARK, 77));
    }
}

#[test]
fn leaves() {
    let mut random = Random::new(3);
    for length in 0..=16 {
        for _ in 0..500 {
            let (position, value) = (random.number().to_le_bytes(), random.bytes(length));
            let mut out = MARK;
            assert_eq!(proved::leaf(&position, &value, &mut out), 0);
            assert_eq!(out, tree::leaf(&[&position[..], &value].concat()), "{length} bytes");
        }
    }
}

#[test]
fn longer_values_are_refused() {
    for length in (17..=130).chain([1 << 20]) {
        let mut out = MARK;
        assert_eq!(proved::leaf(&[1, 2, 3, 4], &vec![7; length], &mut out), 1, "{length} bytes");
        assert_eq!(out, MARK);
    }
}

#[test]
fn inner_nodes() {
    let mut random = Random::new(4);
    for _ in 0..5_000 {
        let (left, right) = (random.digest(), random.digest());
        assert_eq!(proved::node(&left, &right), tree::node(&left, &right));
    }
}
