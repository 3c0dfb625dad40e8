//! The proved library through its C boundary: one safe function for each that the crate `harness` exports.
//!
//! A slice crosses the boundary as pointer and length, an array as a pointer alone.

pub type Digest = [u8; 32];

mod exported {
    extern "C" {
        pub fn lomvuze_test_add(a: u32, b: u32) -> u32;
        pub fn lomvuze_test_sub(a: u32, b: u32) -> u32;
        pub fn lomvuze_test_neg(a: u32) -> u32;
        pub fn lomvuze_test_mul(a: u32, b: u32) -> u32;
        pub fn lomvuze_test_pow(a: u32, e: u32) -> u32;
        pub fn lomvuze_test_inverse(n: u32) -> u32;
        pub fn lomvuze_test_chain_mul(x: u32, y: u32, n: u32) -> u32;
        pub fn lomvuze_test_chain_add(x: u32, y: u32, n: u32) -> u32;

        pub fn lomvuze_test_digest(message: *const u8, length: usize, out: *mut u8, blocks: *mut u64) -> u32;
        pub fn lomvuze_test_leaf(position: *const u8, value: *const u8, length: usize, out: *mut u8) -> u32;
        pub fn lomvuze_test_node(left: *const u8, right: *const u8, out: *mut u8);

        pub fn lomvuze_test_side_by_side(messages: *const [u8; 128], blocks: usize, out: *mut [u8; 32]);

        pub fn lomvuze_test_running(message: *const u8, length: usize, step: usize, out: *mut u8) -> u32;
        pub fn lomvuze_test_running_node(left: *const u8, right: *const u8, out: *mut u8);

        pub fn lomvuze_test_root(values: *const u32, count: usize, depth: usize, out: *mut u8) -> u32;
        pub fn lomvuze_test_opening(
            values: *const u32,
            count: usize,
            depth: usize,
            position: usize,
            out: *mut u8,
            size: usize,
        ) -> u32;
        pub fn lomvuze_test_leads(
            opening: *const u8,
            size: usize,
            depth: usize,
            position: usize,
            out: *mut u8,
        ) -> u32;

        pub fn lomvuze_test_codeword(w: *const u32, k: usize, out: *mut u32, count: usize) -> u32;
        pub fn lomvuze_test_codeword_at(
            w: *const u32,
            k: usize,
            points: *const u32,
            count: usize,
            out: *mut u32,
            size: usize,
        ) -> u32;
        pub fn lomvuze_test_points(k: u32, points: *const u8, length: usize) -> u32;

        pub fn lomvuze_test_listing(sheet: *const u8, length: usize, out: *mut u8, size: usize) -> usize;
    }
}
use exported::*;

// ---- The field. An operand is any number, and stands for its element.

pub fn add(a: u32, b: u32) -> u32 {
    unsafe { lomvuze_test_add(a, b) }
}

pub fn sub(a: u32, b: u32) -> u32 {
    unsafe { lomvuze_test_sub(a, b) }
}

pub fn neg(a: u32) -> u32 {
    unsafe { lomvuze_test_neg(a) }
}

pub fn mul(a: u32, b: u32) -> u32 {
    unsafe { lomvuze_test_mul(a, b) }
}

pub fn pow(a: u32, e: u32) -> u32 {
    unsafe { lomvuze_test_pow(a, e) }
}

/// The inverse of n modulo 64; that of 0 is 0.
pub fn inverse(n: u32) -> u32 {
    unsafe { lomvuze_test_inverse(n) }
}

/// x × y^n, by n products.
pub fn chain_mul(x: u32, y: u32, n: u32) -> u32 {
    unsafe { lomvuze_test_chain_mul(x, y, n) }
}

/// x + n × y, by n sums.
pub fn chain_add(x: u32, y: u32, n: u32) -> u32 {
    unsafe { lomvuze_test_chain_add(x, y, n) }
}

// ---- SHA-256.

/// The digest of a message, and how many blocks were processed for it.
pub fn digest(message: &[u8]) -> (Digest, u64) {
    let (mut out, mut blocks) = ([0; 32], 0);
    let answer =
        unsafe { lomvuze_test_digest(message.as_ptr(), message.len(), out.as_mut_ptr(), &mut blocks) };
    assert_eq!(answer, 0);
    (out, blocks)
}

/// The same for a message of 2^61 bytes or more, which is refused by its length: none of its bytes is read.
pub fn digest_of_length(length: usize, out: &mut Digest, blocks: &mut u64) -> u32 {
    assert!(length >= 1 << 61);
    unsafe { lomvuze_test_digest([0].as_ptr(), length, out.as_mut_ptr(), blocks) }
}

/// Writes the digest of the leaf of a position and a value. Answers 0, or 1 where it refuses a value of more than
/// sixteen bytes.
pub fn leaf(position: &[u8; 4], value: &[u8], out: &mut Digest) -> u32 {
    unsafe { lomvuze_test_leaf(position.as_ptr(), value.as_ptr(), value.len(), out.as_mut_ptr()) }
}

pub fn node(left: &Digest, right: &Digest) -> Digest {
    let mut out = [0; 32];
    unsafe { lomvuze_test_node(left.as_ptr(), right.as_ptr(), out.as_mut_ptr()) };
    out
}

/// The digests of four messages side by side, of which each stands padded in one block or in two.
pub fn side_by_side(messages: &[[u8; 128]; 4], blocks: usize) -> [Digest; 4] {
    assert!(blocks == 1 || blocks == 2);
    let mut out = [[0; 32]; 4];
    unsafe { lomvuze_test_side_by_side(messages.as_ptr(), blocks, out.as_mut_ptr()) };
    out
}

// ---- The running hash.

/// Feeds a message in by pieces of `step` bytes, of which the last may be shorter, and writes its digest. Answers 0, or 1
/// where it refuses a step of 0.
pub fn running(message: &[u8], step: usize, out: &mut Digest) -> u32 {
    unsafe { lomvuze_test_running(message.as_ptr(), message.len(), step, out.as_mut_ptr()) }
}

/// The same for a message of 2^61 bytes or more, which is refused by its length: none of its bytes is read.
pub fn running_of_length(length: usize, step: usize, out: &mut Digest) -> u32 {
    assert!(length >= 1 << 61);
    unsafe { lomvuze_test_running([0].as_ptr(), length, step, out.as_mut_ptr()) }
}

/// Feeds the byte 1 and two digests in: the digest of an inner node.
pub fn running_node(left: &Digest, right: &Digest) -> Digest {
    let mut out = [0; 32];
    unsafe { lomvuze_test_running_node(left.as_ptr(), right.as_ptr(), out.as_mut_ptr()) };
    out
}

// ---- Hash trees over 2^depth values. Each answers 0, or 1 where it refuses sizes that do not fit.

pub fn root(values: &[u32], depth: usize, out: &mut Digest) -> u32 {
    unsafe { lomvuze_test_root(values.as_ptr(), values.len(), depth, out.as_mut_ptr()) }
}

/// Writes the opening of a position: the value in four bytes and the sibling digests from the leaf upwards.
pub fn opening(values: &[u32], depth: usize, position: usize, out: &mut [u8]) -> u32 {
    unsafe {
        lomvuze_test_opening(values.as_ptr(), values.len(), depth, position, out.as_mut_ptr(), out.len())
    }
}

/// Writes where an opening leads.
pub fn leads_to(opening: &[u8], depth: usize, position: usize, out: &mut Digest) -> u32 {
    unsafe { lomvuze_test_leads(opening.as_ptr(), opening.len(), depth, position, out.as_mut_ptr()) }
}

// ---- The code. Each answers 0, or 1 where it refuses sizes that do not fit or a number of w that is p or more.

/// Writes the codeword at the built-in points, by the halving transform.
pub fn codeword(w: &[u32], out: &mut [u32]) -> u32 {
    unsafe { lomvuze_test_codeword(w.as_ptr(), w.len(), out.as_mut_ptr(), out.len()) }
}

/// Writes the value of w at each of the points, by the sums that define it. Counts are free, and a point is any
/// number, which stands for its element.
pub fn codeword_at(w: &[u32], points: &[u32], out: &mut [u32]) -> u32 {
    unsafe {
        lomvuze_test_codeword_at(
            w.as_ptr(),
            w.len(),
            points.as_ptr(),
            points.len(),
            out.as_mut_ptr(),
            out.len(),
        )
    }
}

/// Checks 2 and 12 of the points that are lent for k witness numbers: 0, or the first that fails.
pub fn points(k: u32, points: &[u8]) -> u32 {
    unsafe { lomvuze_test_points(k, points.as_ptr(), points.len()) }
}

// ---- Sheets.

/// The longest listing: a line of ten bytes, and 64 lines of 33.
const LISTING: usize = 10 + 64 * 33;

/// What the program `claims` prints for a sheet.
pub fn listing(sheet: &[u8]) -> Vec<u8> {
    let mut out = vec![0; LISTING];
    let length = unsafe { lomvuze_test_listing(sheet.as_ptr(), sheet.len(), out.as_mut_ptr(), out.len()) };
    assert!(out[length..].iter().all(|byte| *byte == 0));
    out.truncate(length);
    out
}
