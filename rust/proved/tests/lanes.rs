//! Four messages hashed side by side, beside the reference's SHA-256 of each.

use lomvuze_proved::side_by_side;
use lomvuze_reference::sha256::hash;
use lomvuze_trials::Random;

/// A message of at most 119 bytes, padded as FIPS 180-4, section 5.1.1, has it, before bytes that belong to no block.
fn padded(message: &[u8], behind: u8) -> [u8; 128] {
    let end = if message.len() < 56 { 64 } else { 128 };
    let mut all = [behind; 128];
    all[..end].fill(0);
    all[..message.len()].copy_from_slice(message);
    all[message.len()] = 0x80;
    all[end - 8..end].copy_from_slice(&(8 * message.len() as u64).to_be_bytes());
    all
}

fn compare(messages: &[Vec<u8>; 4], blocks: usize) {
    let behind = messages.each_ref().map(|message| padded(message, 0xAA));
    let expected = messages.each_ref().map(|message| hash(message).digest);
    let lengths = messages.each_ref().map(Vec::len);
    assert_eq!(side_by_side(&behind, blocks), expected, "{lengths:?} bytes");
}

/// Each lane has a message of its own length: neither digest nor padding is another lane's.
#[test]
fn lanes_of_any_lengths() {
    let mut random = Random::new(1);
    for (blocks, shortest, lengths) in [(1, 0, 56), (2, 56, 64)] {
        for _ in 0..5_000 {
            compare(
                &[(); 4].map(|()| {
                    let length = shortest + random.below(lengths);
                    random.bytes(length)
                }),
                blocks,
            );
        }
    }
}

/// The lengths of a leaf and of an inner node, and the first and last of one block and of two.
#[test]
fn lanes_of_one_length() {
    let mut random = Random::new(2);
    for (length, blocks) in [(0, 1), (9, 1), (21, 1), (55, 1), (56, 2), (64, 2), (65, 2), (119, 2)] {
        for _ in 0..500 {
            compare(&[(); 4].map(|()| random.bytes(length)), blocks);
        }
    }
}

/// Four equal messages have four equal digests, and another message in one lane changes that one alone.
#[test]
fn a_lane_by_itself() {
    let mut random = Random::new(3);
    for lane in 0..4 {
        let same = random.bytes(65);
        let mut messages = [(); 4].map(|()| same.clone());
        compare(&messages, 2);
        messages[lane] = random.bytes(65);
        compare(&messages, 2);
    }
}
