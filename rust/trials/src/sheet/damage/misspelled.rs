//! Keywords, numbers and roots that are misspelled.

use super::pick;
use crate::Random;
use lomvuze_reference::field::P;

/// No keyword, mostly near one.
pub(super) fn misspelled_keyword(random: &mut Random, keyword: &[u8]) -> Vec<u8> {
    let mut other = keyword.to_vec();
    let at = random.below(keyword.len());
    match random.below(7) {
        _ if other.is_empty() => other.push(b'q'),
        0 => drop(other.pop()),
        1 => other.push(pick(random, b"s a0\r\0")),
        2 => other.insert(0, pick(random, b" \xefsaq")),
        3 => other[at].make_ascii_uppercase(),
        4 => other[at] = b'q',
        5 => other[at] ^= 0x80,
        _ => other.clear(),
    }
    other
}

/// No number, but near one.
pub(super) fn misspelled_number(random: &mut Random, number: &[u8]) -> Vec<u8> {
    let wrapped = |before: &[u8], behind: &[u8]| [before, number, behind].concat();
    match random.below(5) {
        0 => wrapped(b"0", b""),
        1 => wrapped(pick::<&[u8]>(random, &[b"-", b"+", b" ", b"/", b":", b"a", b"\0"]), b""),
        2 => wrapped(b"", pick::<&[u8]>(random, &[b" ", b"/", b":", b"a", b"\r", b"\0", b"0000000000"])),
        _ => pick::<&[u8]>(
            random,
            &[
                b"",
                b"00",
                b"4294967296",
                b"4294967297",
                b"8589934592",
                b"9999999999",
                b"10000000000",
                b"42949672960",
                b"18446744073709551616",
                b"0x1",
                b"1.0",
                "\u{663}".as_bytes(),
            ],
        )
        .to_vec(),
    }
}

/// A number, often one at an edge, or a field that is none.
pub(super) fn any_number(random: &mut Random) -> Vec<u8> {
    match random.below(4) {
        0 => misspelled_number(random, b"1"),
        1 => pick(random, &[0, 1, 2, P - 1, P, u32::MAX]).to_string().into_bytes(),
        2 => random.below(130).to_string().into_bytes(),
        _ => random.number().to_string().into_bytes(),
    }
}

/// No root, but near one.
pub(super) fn misspelled_root(random: &mut Random, root: &[u8]) -> Vec<u8> {
    let mut other = root.to_vec();
    let at = random.below(root.len());
    match random.below(6) {
        0 => drop(other.pop()),
        1 => other.push(b'0'),
        2 => other[at] = pick(random, b"ABCDEF"),
        3 => other[at] = pick(random, b"g/:@G` \r\0"),
        4 => other.truncate(at),
        _ => other.extend(root),
    }
    other
}
