//! Draws by hand: each string that is hashed written out, and each remainder worked out from the digest.

use lomvuze_reference::claims::Item;
use lomvuze_reference::draws;
use lomvuze_reference::field::{Element, P};
use lomvuze_reference::sha256::{digest, Digest};

fn elements(numbers: &[u32]) -> Vec<Element> {
    numbers.iter().map(|number| Element::new(*number).unwrap()).collect()
}

fn item(e: u32, r: &[u32], x: &[u32], root: Digest) -> Item {
    Item { e: elements(&[e])[0], r: elements(r), x: elements(x), root }
}

// ---- What is hashed

/// One item with m = 0: no r, and a quotient without coefficients.
#[test]
fn the_seed_of_one_item() {
    let message = draws::seed_message((0, 1, 2), &[item(5, &[], &[1], [9; 32])], &[]);
    let sizes = [0, 0, 0, 0, 1, 0, 0, 0, 2, 0, 0, 0, 1, 0, 0, 0];
    assert_eq!(message, [&[0x02], &sizes[..], &[5, 0, 0, 0, 1, 0, 0, 0], &[9; 32]].concat());
    assert_eq!(message.len(), 1 + 16 + 40);
}

#[test]
fn the_seed_of_two_items() {
    let items = [item(3, &[258], &[1, P - 1], [7; 32]), item(0, &[4], &[1, 6], [8; 32])];
    let message = draws::seed_message((1, 2, 64), &items, &elements(&[10, 65536]));
    let sizes = [1, 0, 0, 0, 2, 0, 0, 0, 64, 0, 0, 0, 2, 0, 0, 0];
    let first = [3, 0, 0, 0, 2, 1, 0, 0, 1, 0, 0, 0, 0, 0, 0, 0x78];
    let second = [0, 0, 0, 0, 4, 0, 0, 0, 1, 0, 0, 0, 6, 0, 0, 0];
    let quotient = [10, 0, 0, 0, 0, 0, 1, 0];
    let parts = [&[0x02], &sizes[..], &first, &[7; 32], &second, &[8; 32], &quotient];
    assert_eq!(message, parts.concat());
    assert_eq!(draws::seed((1, 2, 64), &items, &elements(&[10, 65536])), digest(&parts.concat()));
}

#[test]
fn the_other_strings() {
    let (seed, root) = ([1; 32], [2; 32]);
    assert_eq!(draws::challenge_message(&seed), [&[0x03][..], &[1; 32]].concat());
    let challenge = elements(&[0x01020304])[0];
    assert_eq!(
        draws::position_message(&seed, challenge, &root, 255),
        [&[0x04][..], &[1; 32], &[4, 3, 2, 1], &[2; 32], &[255, 0, 0, 0]].concat()
    );
    assert_eq!(
        draws::r_message(&root, &elements(&[1, 6]), 5),
        [&[0x05][..], &[2; 32], &[1, 0, 0, 0, 6, 0, 0, 0], &[5, 0, 0, 0]].concat()
    );
}

// ---- What is drawn. The digests are Python's hashlib's.

/// The digest begins with 18 ce b0 db 22 81 11 65: lowest first, these are 7282744059149471256.
#[test]
fn challenges() {
    let seed = [1; 32];
    let first_8: u64 = 7282744059149471256;
    assert_eq!(first_8.to_le_bytes(), digest(&draws::challenge_message(&seed))[..8]);
    let challenges: Vec<u32> = (1..=8).map(|l| draws::challenge(l, &seed).number()).collect();
    let expected =
        [598789657, 189635925, 1793748115, 1384594390, 975440669, 566286952, 157133239, 1761245443];
    assert_eq!(challenges, expected);
    for (l, challenge) in (1..=8).zip(expected) {
        assert_eq!((challenge as u64 - l, l <= challenge as u64), (first_8 % (P as u64 - l), true));
    }
}

/// The digests begin with 70 e6 96 42, d7 72 c2 53 and fd 68 33 78.
#[test]
fn positions() {
    let (seed, root, challenge) = ([1; 32], [2; 32], elements(&[0x01020304])[0]);
    let position = |k, j| draws::position(k, &seed, challenge, &root, j);
    let first_4 = [0x4296e670, 0x53c272d7, 0x783368fd_u32];
    assert_eq!([0, 1, 2].map(|j| position(64, j)), [112, 215, 253]);
    assert_eq!([0, 1, 2].map(|j| position(2, j)), [0, 7, 5]);
    for k in [2, 4, 8, 16, 32, 64] {
        assert_eq!([0, 1, 2].map(|j| position(k, j)), first_4.map(|number| number % (4 * k as u32)));
    }
}

/// The first eight bytes of the digests are 1085988115240875638, 4471258867687850993 and 7339832702773765213.
#[test]
fn numbers_r() {
    let (root, x) = ([2; 32], elements(&[1, 6]));
    let first_8 = [1085988115240875638, 4471258867687850993, 7339832702773765213_u64];
    let drawn = [0, 1, 2].map(|j| draws::r(&root, &x, j).number());
    assert_eq!(drawn, [1460903987, 251218930, 1045603994]);
    assert_eq!(drawn.map(u64::from), first_8.map(|number| number % P as u64));
}
