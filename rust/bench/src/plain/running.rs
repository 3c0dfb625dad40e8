//! A running SHA-256: a message is fed in piece by piece. The reference hashes whole messages alone; its blocks and its
//! padding are these.

use lomvuze_reference::sha256::{compress, digest_of, pad, Digest, INITIAL};

/// The hash value after the whole blocks fed in, the bytes since at the front of `rest`, and how many bytes were fed in.
#[derive(Clone, Copy)]
pub(crate) struct Running {
    value: [u32; 8],
    rest: [u8; 64],
    len: usize,
}

impl Running {
    pub fn new() -> Running {
        Running { value: *INITIAL, rest: [0; 64], len: 0 }
    }

    /// Fills the unfinished block, then hashes whole blocks as they lie, and keeps what is left.
    pub fn feed(mut self, bytes: &[u8]) -> Running {
        let at = self.len % 64;
        self.len += bytes.len();
        if bytes.len() < 64 - at {
            self.rest[at..at + bytes.len()].copy_from_slice(bytes);
            return self;
        }
        let (first, behind) = bytes.split_at(64 - at);
        self.rest[at..].copy_from_slice(first);
        self.value = compress(self.value, &self.rest);
        let blocks = behind.chunks_exact(64);
        let left = blocks.remainder();
        self.value = blocks.fold(self.value, compress);
        self.rest[..left.len()].copy_from_slice(left);
        self
    }

    pub fn feed_number(self, number: u32) -> Running {
        self.feed(&number.to_le_bytes())
    }

    /// Hashes the last blocks, which hold the padding.
    pub fn digest(self) -> Digest {
        let (last, end) = pad(&self.rest[..self.len % 64], self.len);
        digest_of(last[..end].chunks_exact(64).fold(self.value, compress))
    }
}

/// The digest of a message that is fed in by pieces of `step` bytes.
#[inline(never)]
pub fn hash(message: &[u8], step: usize) -> Digest {
    message.chunks(step).fold(Running::new(), Running::feed).digest()
}

/// The digest of an inner node: the byte 1 and the two digests are fed in.
#[inline(never)]
pub fn node(left: &Digest, right: &Digest) -> Digest {
    Running::new().feed(&[1]).feed(left).feed(right).digest()
}
