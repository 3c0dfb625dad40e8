//! The rows of the layers below the calls.

use crate::plain::{code, field, running, tree};
use crate::table::Line;
use lomvuze_calls::layout::OpeningLayout;
use lomvuze_proved as proved;
use lomvuze_reference::sha256;
use std::hint::black_box;

/// What a function writes to a buffer of N zeros.
fn written<T: Copy + Default, const N: usize>(write: impl FnOnce(&mut [T; N])) -> [T; N] {
    let mut out = [T::default(); N];
    write(&mut out);
    out
}

// ---- Hashes

fn plain_hash(message: &[u8]) -> (sha256::Digest, u64) {
    let sha256::Hashed { digest, blocks } = sha256::hash(message);
    (digest, blocks)
}

fn mebibyte() -> Vec<u8> {
    (0..1 << 20).map(|i| (i * 7 + i / 256) as u8).collect()
}

pub fn short_hash(row: &Line) {
    let message: [u8; 65] = std::array::from_fn(|i| i as u8);
    row.compare(1, || proved::digest(black_box(&message)), || plain_hash(black_box(&message)));
}

pub fn long_hash(row: &Line) {
    let message = mebibyte();
    row.compare(1, || proved::digest(black_box(&message)), || plain_hash(black_box(&message)));
}

/// A byte and two digests.
pub fn short_running_hash(row: &Line) {
    let (left, right) = ([7; 32], [8; 32]);
    row.compare(
        1,
        || proved::running_node(black_box(&left), &right),
        || running::node(black_box(&left), &right),
    );
}

/// Pieces of 100 bytes.
pub fn long_running_hash(row: &Line) {
    let message = mebibyte();
    row.compare(
        1,
        || written(|out| assert_eq!(proved::running(black_box(&message), 100, out), 0)),
        || running::hash(black_box(&message), 100),
    );
}

/// Four messages of an inner node's length: the proved ones, which are padded beforehand, side by side, the plain ones one
/// at a time. The times are those of one.
pub fn side_by_side(row: &Line) {
    let messages: [[u8; 65]; 4] = std::array::from_fn(|i| std::array::from_fn(|j| (64 * i + j) as u8));
    let padded = messages.map(|message| {
        let mut padded = [0; 128];
        padded[..65].copy_from_slice(&message);
        padded[65] = 0x80;
        padded[126..].copy_from_slice(&(8 * 65u16).to_be_bytes());
        padded
    });
    row.compare(
        4,
        || proved::side_by_side(black_box(&padded), 2),
        || black_box(&messages).map(|message| sha256::digest(&message)),
    );
}

// ---- The field

const X: u32 = 1234567890;
const Y: u32 = 1987654321;
const STEPS: u32 = 100_000;

pub fn product(row: &Line) {
    row.compare(
        STEPS,
        || proved::chain_mul(black_box(X), Y, STEPS),
        || field::chain_mul(black_box(X), Y, STEPS),
    );
}

pub fn sum(row: &Line) {
    row.compare(
        STEPS,
        || proved::chain_add(black_box(X), Y, STEPS),
        || field::chain_add(black_box(X), Y, STEPS),
    );
}

// ---- The code and the tree

fn witness() -> Vec<u32> {
    (0..64).map(|j| field::mul(Y, 1000 + j)).collect()
}

pub fn codeword(row: &Line) {
    let w = witness();
    row.compare(
        1,
        || written::<_, 256>(|out| assert_eq!(proved::codeword(black_box(&w), out), 0)),
        || written::<_, 256>(|out| code::codeword(black_box(&w), out)),
    );
}

pub fn codeword_by_sums(row: &Line) {
    let (w, points) = (witness(), &code::POINTS);
    row.compare(
        1,
        || written::<_, 256>(|out| assert_eq!(proved::codeword_at(black_box(&w), points, out), 0)),
        || written::<_, 256>(|out| code::codeword_at(black_box(&w), points, out)),
    );
}

pub fn root(row: &Line) {
    let values = written::<_, 256>(|out| code::codeword(&witness(), out));
    row.compare(
        1,
        || written(|out| assert_eq!(proved::root(black_box(&values), 8, out), 0)),
        || tree::root(black_box(&values)),
    );
}

pub fn opening(row: &Line) {
    const BYTES: usize = OpeningLayout { k: 64 }.bytes();
    let values = written::<_, 256>(|out| code::codeword(&witness(), out));
    row.compare(
        1,
        || written::<_, BYTES>(|out| assert_eq!(proved::opening(black_box(&values), 8, 77, out), 0)),
        || written::<_, BYTES>(|out| tree::openings(black_box(&values), [77].into_iter(), out)),
    );
}
