//! Texts that are no sheets.

use super::pick;
use crate::Random;

const ROOT: &[u8] = &[b'0'; 64];
const WORDS: [&[u8]; 14] =
    [b"size", b"a", b"b", b"c", b"item", b"wit", b"end", b"\t", b"\n", b"0", b"1", b"2", b"4294967295", ROOT];
const LINES: [&[u8]; 8] = [
    b"size\t0\t2\t2\n",
    b"a\t0\t2\t1\n",
    b"b\t0\t3\t1\n",
    b"c\t0\t1\t1\n",
    b"item\t0\t1\t6\t0123456789abcdef0123456789abcdef0123456789abcdef0123456789abcdef\n",
    b"wit\t2\t3\n",
    b"end\t0\n",
    b"end\t1\n",
];

/// Random bytes, or words or lines of sheets in any order.
pub fn junk(random: &mut Random) -> Vec<u8> {
    let count = random.below(40);
    match random.below(3) {
        0 => random.bytes(5 * count),
        1 => (0..count).flat_map(|_| pick(random, &WORDS)).copied().collect(),
        // Mostly in the order of sheets.
        _ => {
            let mut lines: Vec<usize> = (0..count.min(12)).map(|_| random.below(LINES.len())).collect();
            if random.below(4) > 0 {
                lines.sort();
                lines.dedup();
            }
            lines.iter().flat_map(|i| LINES[*i]).copied().collect()
        }
    }
}
