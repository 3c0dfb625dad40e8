//! SHA-256, section by section from FIPS 180-4. A message is a string of bytes.

use std::sync::LazyLock;

pub type Digest = [u8; 32];

// 4.1.2: the six functions. ROTR and SHR are those of sections 2.2.2 and 3.2.

fn ch(x: u32, y: u32, z: u32) -> u32 {
    (x & y) ^ (!x & z)
}

fn maj(x: u32, y: u32, z: u32) -> u32 {
    (x & y) ^ (x & z) ^ (y & z)
}

fn big_sigma_0(x: u32) -> u32 {
    x.rotate_right(2) ^ x.rotate_right(13) ^ x.rotate_right(22)
}

fn big_sigma_1(x: u32) -> u32 {
    x.rotate_right(6) ^ x.rotate_right(11) ^ x.rotate_right(25)
}

fn small_sigma_0(x: u32) -> u32 {
    x.rotate_right(7) ^ x.rotate_right(18) ^ (x >> 3)
}

fn small_sigma_1(x: u32) -> u32 {
    x.rotate_right(17) ^ x.rotate_right(19) ^ (x >> 10)
}

// 4.2.2 and 5.3.3: the constants are the first 32 bits of the fractional parts of roots of the first primes.
// They are worked out here from that description, so that no table is copied.

/// The first `count` primes.
fn primes(count: usize) -> Vec<u128> {
    (2..).filter(|n| (2..*n).all(|d| n % d != 0)).take(count).collect()
}

/// The largest x below 2^42 with x^power at most n, for a power of 2 or 3.
fn whole_root(n: u128, power: u32) -> u128 {
    let (mut low, mut high): (u128, u128) = (0, 1 << 42);
    while low + 1 < high {
        let middle = (low + high) / 2;
        if middle.pow(power) <= n {
            low = middle;
        } else {
            high = middle;
        }
    }
    low
}

/// The first 32 bits of the fractional part of the root of n: the root of n × 2^(32 × power), modulo 2^32.
fn root_fraction(n: u128, power: u32) -> u32 {
    whole_root(n << (32 * power), power) as u32
}

/// 4.2.2: the round constants, from the cube roots of the first 64 primes.
pub fn round_constants() -> [u32; 64] {
    let primes = primes(64);
    std::array::from_fn(|t| root_fraction(primes[t], 3))
}

/// 5.3.3: the initial hash value, from the square roots of the first 8 primes.
pub fn initial_value() -> [u32; 8] {
    let primes = primes(8);
    std::array::from_fn(|i| root_fraction(primes[i], 2))
}

/// 5.1.1: the padded message behind the message's whole blocks, in the first bytes of an array, and how many they are: the
/// rest of the message, the bit 1, the fewest bits 0 that fill up a block, and the message's length in bits.
pub fn pad(rest: &[u8], length: usize) -> ([u8; 128], usize) {
    let mut padded = [0; 128];
    padded[..rest.len()].copy_from_slice(rest);
    padded[rest.len()] = 0x80;
    let end = if rest.len() < 56 { 64 } else { 128 };
    padded[end - 8..end].copy_from_slice(&(8 * length as u64).to_be_bytes());
    (padded, end)
}

/// 6.2.2, step 1: the message schedule of a block of 64 bytes.
fn schedule(block: &[u8]) -> [u32; 64] {
    let mut w = [0; 64];
    for (word, bytes) in w.iter_mut().zip(block.chunks_exact(4)) {
        *word = u32::from_be_bytes(bytes.try_into().expect("four bytes"));
    }
    for t in 16..64 {
        w[t] = small_sigma_1(w[t - 2])
            .wrapping_add(w[t - 7])
            .wrapping_add(small_sigma_0(w[t - 15]))
            .wrapping_add(w[t - 16]);
    }
    w
}

/// The round constants, worked out once.
static CONSTANTS: LazyLock<[u32; 64]> = LazyLock::new(round_constants);

/// The initial hash value, worked out once.
pub static INITIAL: LazyLock<[u32; 8]> = LazyLock::new(initial_value);

/// 6.2.2, steps 2 to 4: the hash value after one more block.
pub fn compress(hash: [u32; 8], block: &[u8]) -> [u32; 8] {
    let (w, constants) = (schedule(block), &*CONSTANTS);
    let [mut a, mut b, mut c, mut d, mut e, mut f, mut g, mut h] = hash;
    for t in 0..64 {
        let t1 = h
            .wrapping_add(big_sigma_1(e))
            .wrapping_add(ch(e, f, g))
            .wrapping_add(constants[t])
            .wrapping_add(w[t]);
        let t2 = big_sigma_0(a).wrapping_add(maj(a, b, c));
        h = g;
        g = f;
        f = e;
        e = d.wrapping_add(t1);
        d = c;
        c = b;
        b = a;
        a = t1.wrapping_add(t2);
    }
    let after = [a, b, c, d, e, f, g, h];
    std::array::from_fn(|i| hash[i].wrapping_add(after[i]))
}

/// The digest of a message, and how many blocks were processed for it.
#[derive(Clone, Copy, PartialEq, Debug)]
pub struct Hashed {
    pub digest: Digest,
    pub blocks: u64,
}

/// 6.2.2, at the end: the digest is the last hash value.
pub fn digest_of(hash: [u32; 8]) -> Digest {
    let mut digest = [0; 32];
    for i in 0..8 {
        digest[4 * i..4 * i + 4].copy_from_slice(&hash[i].to_be_bytes());
    }
    digest
}

/// 6.2: processes the blocks of the padded message, one after the other, and counts them.
pub fn hash(message: &[u8]) -> Hashed {
    let (mut hash, mut blocks) = (*INITIAL, 0);
    let whole = message.chunks_exact(64);
    let (padded, end) = pad(whole.remainder(), message.len());
    for block in whole.chain(padded[..end].chunks_exact(64)) {
        hash = compress(hash, block);
        blocks += 1;
    }
    Hashed { digest: digest_of(hash), blocks }
}

/// The digest alone.
pub fn digest(message: &[u8]) -> Digest {
    hash(message).digest
}

#[cfg(test)]
mod tests {
    use super::*;

    /// The padded message goes on with the bit 1 and bits 0, ends with the length and has whole blocks, and each is counted.
    #[test]
    fn blocks_of_every_length() {
        for length in 0..=300 {
            let message = vec![0x5a; length];
            let rest = &message[length - length % 64..];
            let (padded, end) = pad(rest, length);
            assert_eq!((end % 64, &padded[..rest.len()]), (0, rest), "{length} bytes");
            assert_eq!(padded[rest.len()], 0x80, "{length} bytes");
            assert!(padded[rest.len() + 1..end - 8].iter().all(|byte| *byte == 0), "{length} bytes");
            assert_eq!(padded[end - 8..end], (8 * length as u64).to_be_bytes(), "{length} bytes");
            // One block more than are full before the bit 1 and the eight bytes of the length.
            assert_eq!(hash(&message).blocks, (length as u64 + 8) / 64 + 1, "{length} bytes");
        }
    }

    /// By hand: up to 55 bytes leave room for the bit 1 and the length in the first block, and up to 119 in the second.
    #[test]
    fn blocks_by_hand() {
        let counts = [0, 1, 9, 55, 56, 63, 64, 65, 119, 120].map(|length| hash(&vec![0; length]).blocks);
        assert_eq!(counts, [1, 1, 1, 1, 2, 2, 2, 2, 2, 3]);
    }
}
