//! What is drawn by hash: the strings that are hashed, what each draw depends on, and the ranges of what is drawn.

use super::draw::{Change, Draw};
use crate::{bytes, put, Library, Name, Random};
use lomvuze_reference::field::P;
use lomvuze_reference::sha256;
use std::collections::BTreeSet;

const WITNESS_COUNTS: [u32; 6] = [2, 4, 8, 16, 32, 64];

// ---- Known draws

/// Worked out with Python's hashlib.
pub fn known_draws(by: &Library) {
    let drawn = |m, n, k, l, t| {
        let draw = Draw::of(m, n, k, l, t);
        let (seed, challenge) = draw.drawn_challenge(by);
        let seed: String = seed.iter().map(|byte| format!("{byte:02x}")).collect();
        (seed, challenge, draw.drawn_positions(by), draw.drawn_r(by))
    };
    let (seed, challenge, positions, r) = drawn(1, 2, 2, 2, 3);
    assert_eq!(seed, "4c194c88a977bb79a9d9550704be4ed0c812a7e2ca31b60205c3dcff1f44cd2e");
    assert_eq!((challenge, positions, r), (1761000138, vec![2, 4, 7], vec![648590684]));

    let (seed, challenge, positions, r) = drawn(0, 1, 2, 1, 8);
    assert_eq!(seed, "b7efdf4b2175d403d028a929eda6e5c5e2711f0004454d411abbfefcb89fa5fc");
    assert_eq!((challenge, positions, r), (1307184696, vec![6, 3, 5, 0, 0, 7, 3, 2], vec![]));

    let (seed, challenge, positions, r) = drawn(6, 64, 64, 8, 256);
    assert_eq!(seed, "946e4e867bae7aa0b84ebc12e60da5d4ff15c0ca0244451fdba2ad3500a59248");
    assert_eq!((challenge, &positions[..4]), (1738912649, &[218, 91, 222, 22][..]));
    assert_eq!(positions[252..], [101, 153, 190, 117]);
    assert_eq!(r, [721949588, 798240053, 2008276981, 320194657, 584477472, 512280827]);
}

/// The digest of parts that follow one another.
fn hashed(parts: &[&[u8]]) -> [u8; 32] {
    sha256::digest(&parts.concat())
}

/// The first bytes of a digest as a number, lowest first.
fn first(count: usize, digest: [u8; 32]) -> u64 {
    digest[..count].iter().rev().fold(0, |number, byte| 256 * number + *byte as u64)
}

pub fn the_strings_that_are_hashed(by: &Library) {
    for (m, n, k, l, t) in
        [(0, 1, 2, 1, 1), (0, 1, 2, 2, 8), (1, 2, 4, 2, 3), (3, 5, 16, 5, 64), (6, 64, 64, 8, 256)]
    {
        let draw = Draw { challenge: P - 1, ..Draw::of(m, n, k, l, t) };
        let seed = hashed(&[&[0x02], &bytes(&[m, n, k, l]), &draw.items, &draw.quotient]);
        let challenge = l as u64 + first(8, hashed(&[&[0x03], &seed])) % (P - l) as u64;
        assert_eq!(draw.drawn_challenge(by), (seed.to_vec(), challenge as u32));
        for (position, j) in draw.drawn_positions(by).into_iter().zip(0..) {
            let digest = hashed(&[&[0x04], &draw.seed, &bytes(&[P - 1]), &draw.root, &bytes(&[j])]);
            assert_eq!(position as u64, first(4, digest) % (4 * k as u64), "position {j}");
        }
        for (r, j) in draw.drawn_r(by).into_iter().zip(0..) {
            let digest = hashed(&[&[0x05], &draw.root, &draw.x, &bytes(&[j])]);
            assert_eq!(r as u64, first(8, digest) % P as u64, "r_{j}");
        }
    }
}

// ---- What the seed depends on

/// Every byte of the items and of the quotient: the seeds of all changes are different. First inputs are 1.
pub fn every_byte_of_items_and_quotient(by: &Library) {
    let start = Draw::of(1, 2, 2, 3, 1);
    let (first, length) = (start.item_layout().first_input(), start.item_layout().bytes());
    let mut seeds = BTreeSet::from([start.drawn_challenge(by).0]);
    for at in 0..start.items.len() {
        let mut other = start.clone();
        other.items[at] ^= 1;
        match first.contains(&(at % length)) {
            true => assert_eq!(other.verdict(by, Name::DrawChallenge), 13),
            false => assert!(seeds.insert(other.drawn_challenge(by).0), "byte {at} of the items"),
        }
    }
    for at in 0..start.quotient.len() {
        let mut other = start.clone();
        other.quotient[at] ^= 1;
        assert!(seeds.insert(other.drawn_challenge(by).0), "byte {at} of the quotient");
    }
}

/// The same bytes under other sizes.
pub fn every_size(by: &Library) {
    let mut seeds = BTreeSet::new();
    // Of an item's four numbers, all of them 1, the last three are r or x.
    for m in 0..3 {
        let mut draw = Draw::of(m, 3 - m, 2, 1, 1);
        (0..4).for_each(|i| put(&mut draw.items, 4 * i, 1));
        for k in WITNESS_COUNTS {
            let draw = Draw { k, ..draw.clone() };
            assert!(seeds.insert(draw.drawn_challenge(by).0), "m = {m}, k = {k}");
        }
    }
    // Two items of one input and a coefficient, and one item of twelve inputs.
    let two = Draw::of(0, 1, 2, 2, 1);
    let items = [&two.items[..], &two.quotient].concat();
    let one = Draw { items, ..Draw::of(0, 12, 2, 1, 1) };
    assert_ne!(two.drawn_challenge(by).0, one.drawn_challenge(by).0);
}

// ---- What positions and r depend on

/// Every byte of the seed, of the root and of the challenge, and j.
pub fn positions(by: &Library) {
    let start = Draw { challenge: 1000, ..Draw::of(1, 2, 64, 2, 256) };
    let all = start.drawn_positions(by);
    assert_eq!(all.iter().collect::<BTreeSet<_>>().len(), 165);
    let mut drawn = BTreeSet::from([all]);
    for at in 0..32 {
        let mut other = start.clone();
        other.seed[at] ^= 1;
        assert!(drawn.insert(other.drawn_positions(by)), "byte {at} of the seed");
        let mut other = start.clone();
        other.root[at] ^= 1;
        assert!(drawn.insert(other.drawn_positions(by)), "byte {at} of the root");
    }
    for byte in 0..4 {
        let other = Draw { challenge: 1000 ^ 1 << (8 * byte), ..start.clone() };
        assert!(drawn.insert(other.drawn_positions(by)), "byte {byte} of the challenge");
    }
}

/// Neither l nor t is hashed, and k is what the remainder is taken by.
pub fn positions_of_other_sizes(by: &Library) {
    let start = Draw { challenge: 1000, ..Draw::of(1, 2, 64, 2, 256) };
    let all = start.drawn_positions(by);
    for l in 1..=8 {
        assert_eq!(Draw { l, ..start.clone() }.drawn_positions(by), all, "l = {l}");
    }
    for t in [1, 2, 3, 100, 255] {
        let fewer = Draw { t, ..start.clone() };
        assert_eq!(fewer.drawn_positions(by), all[..t as usize], "t = {t}");
    }
    for k in WITNESS_COUNTS {
        let draw = Draw { k, t: 4 * k, ..start.clone() };
        let expected: Vec<u32> = all[..4 * k as usize].iter().map(|position| position % (4 * k)).collect();
        assert_eq!(draw.drawn_positions(by), expected, "k = {k}");
    }
}

/// Every byte of the root and of x, and j. m is not hashed.
pub fn r(by: &Library) {
    let start = Draw::of(6, 3, 2, 2, 1);
    let all = start.drawn_r(by);
    assert_eq!(all.iter().collect::<BTreeSet<_>>().len(), 6);
    for m in 0..6 {
        let fewer = Draw { m, ..start.clone() };
        assert_eq!(fewer.drawn_r(by), all[..m as usize], "m = {m}");
    }
    let mut drawn = BTreeSet::from([all]);
    for at in 0..32 {
        let mut other = start.clone();
        other.root[at] ^= 1;
        assert!(drawn.insert(other.drawn_r(by)), "byte {at} of the root");
    }
    for at in 4..12 {
        let mut other = start.clone();
        other.x[at] ^= 1;
        assert!(drawn.insert(other.drawn_r(by)), "byte {at} of x");
    }
}

/// With m = 0 nothing is written, and the checks run all the same.
pub fn r_of_no_numbers(by: &Library) {
    let empty = Draw::of(0, 2, 2, 2, 1);
    assert_eq!(empty.call(Name::DrawR).outputs, [[]]);
    let changes: [(Change, u32); 6] = [
        (|_| (), 0),
        (|draw| draw.n = 0, 2),
        (|draw| draw.root.truncate(31), 2),
        (|draw| put(&mut draw.x, 4, P), 3),
        (|draw| put(&mut draw.x, 0, P), 3),
        (|draw| put(&mut draw.x, 0, 0), 13),
    ];
    for (change, expected) in changes {
        let mut draw = empty.clone();
        change(&mut draw);
        assert_eq!(draw.verdict(by, Name::DrawR), expected, "{draw:?}");
    }
    let mut longer = empty.call(Name::DrawR);
    longer.outputs[0] = vec![0; 4];
    assert_eq!(super::verdict_of(by, &longer), 2);
}

// ---- Ranges

/// A challenge is l to p - 1, a number r below p, and every position below 4k is drawn.
pub fn ranges(by: &Library) {
    let mut random = Random::new(50);
    for k in WITNESS_COUNTS {
        let mut drawn = BTreeSet::new();
        for i in 0..200 {
            let mut draw = Draw::of(6, 1, k, 1 + i % 8, 4 * k);
            draw.seed = random.bytes(32);
            draw.root = random.bytes(32);
            let layout = draw.item_layout();
            let last = draw.items.len() - layout.bytes();
            draw.items[last..][layout.root()].copy_from_slice(&draw.seed);
            assert!((draw.l..P).contains(&draw.drawn_challenge(by).1));
            assert!(draw.drawn_r(by).iter().all(|number| *number < P));
            drawn.extend(draw.drawn_positions(by));
        }
        assert!(drawn.into_iter().eq(0..4 * k), "k = {k}");
    }
}
