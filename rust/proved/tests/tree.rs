//! The proved hash tree beside the reference.

use lomvuze_proved as proved;
use lomvuze_reference::sha256::Digest;
use lomvuze_reference::tree;
use lomvuze_trials::layout::{DIGEST_BYTES, NUMBER_BYTES};
use lomvuze_trials::Random;

const MARK: Digest = [0xAA; 32];

/// The entry of a value at a position, of which it has the lowest four bytes.
fn entry(position: usize, value: &[u8]) -> Vec<u8> {
    [&(position as u32).to_le_bytes(), value].concat()
}

fn entries(values: &[u32]) -> Vec<Vec<u8>> {
    values.iter().enumerate().map(|(position, value)| entry(position, &value.to_le_bytes())).collect()
}

fn values(random: &mut Random, depth: usize) -> Vec<u32> {
    (0..1 << depth).map(|_| random.number()).collect()
}

/// An opening's value and path.
fn parts(opening: &[u8]) -> (&[u8], Vec<Digest>) {
    let (value, siblings) = opening.split_at(NUMBER_BYTES);
    (value, siblings.chunks(DIGEST_BYTES).map(|digest| digest.try_into().unwrap()).collect())
}

fn proved_opening(values: &[u32], depth: usize, position: usize) -> Vec<u8> {
    let mut opening = vec![0xAA; NUMBER_BYTES + DIGEST_BYTES * depth];
    assert_eq!(proved::opening(values, depth, position, &mut opening), 0);
    opening
}

/// Random values, one of their positions, and its opening.
fn random_opening(random: &mut Random) -> (Vec<u32>, usize, Vec<u8>) {
    let depth = random.below(9);
    let values = values(random, depth);
    let position = random.below(values.len());
    let opening = proved_opening(&values, depth, position);
    (values, position, opening)
}

fn proved_leads_to(opening: &[u8], position: usize) -> Digest {
    let mut out = MARK;
    let depth = (opening.len() - NUMBER_BYTES) / DIGEST_BYTES;
    assert_eq!(proved::leads_to(opening, depth, position, &mut out), 0);
    out
}

fn reference_leads_to(opening: &[u8], position: usize) -> Digest {
    let (value, path) = parts(opening);
    tree::leads_to(&entry(position, value), position, &path).digest
}

#[test]
fn roots() {
    let mut random = Random::new(1);
    for depth in 0..=8 {
        for _ in 0..20 {
            let values = values(&mut random, depth);
            let mut out = MARK;
            assert_eq!(proved::root(&values, depth, &mut out), 0);
            assert_eq!(out, tree::root(&entries(&values)));
        }
    }
}

#[test]
fn openings_of_every_position() {
    let mut random = Random::new(2);
    for depth in 0..=8 {
        let values = values(&mut random, depth);
        let entries = entries(&values);
        let root = tree::root(&entries);
        for (position, value) in values.iter().enumerate() {
            let opening = proved_opening(&values, depth, position);
            assert_eq!(parts(&opening), (&value.to_le_bytes()[..], tree::path(position, &entries)));
            assert_eq!(proved_leads_to(&opening, position), root);
        }
    }
}

/// An opening leads to the root from its own position alone: also where all values are equal, and also where another
/// position, beyond the tree, gives the same sides.
#[test]
fn an_opening_at_every_position() {
    let mut random = Random::new(4);
    for depth in 0..=8 {
        for values in [values(&mut random, depth), vec![7; 1 << depth]] {
            let root = tree::root(&entries(&values));
            let position = random.below(values.len());
            let opening = proved_opening(&values, depth, position);
            for other in 0..2 * values.len() {
                let led = proved_leads_to(&opening, other);
                assert_eq!(led, reference_leads_to(&opening, other));
                assert_eq!(led == root, other == position, "depth {depth}, {position} at {other}");
            }
        }
    }
}

/// Of a position of 2^32 or more, the lowest four bytes stand in the leaf, and the lowest bits give the sides.
#[test]
fn long_positions() {
    let mut random = Random::new(5);
    for _ in 0..500 {
        let (values, position, opening) = random_opening(&mut random);
        let higher = (1 + random.below(u32::MAX as usize)) << 32;
        assert_eq!(proved_leads_to(&opening, position + higher), tree::root(&entries(&values)));
        let any = random.bits() as usize;
        assert_eq!(proved_leads_to(&opening, any), reference_leads_to(&opening, any));
    }
}

/// Honest openings with a bit flipped or at another position, and random bytes.
#[test]
fn damaged_openings() {
    let mut random = Random::new(3);
    for _ in 0..500 {
        let (_, position, mut opening) = random_opening(&mut random);
        let root = proved_leads_to(&opening, position);

        let byte = random.below(opening.len());
        opening[byte] ^= 1 << random.below(8);
        assert_eq!(proved_leads_to(&opening, position), reference_leads_to(&opening, position));
        assert_ne!(proved_leads_to(&opening, position), root);

        let other = random.number() as usize;
        assert_eq!(proved_leads_to(&opening, other), reference_leads_to(&opening, other));

        let bytes = random.bytes(opening.len());
        assert_eq!(proved_leads_to(&bytes, position), reference_leads_to(&bytes, position));
    }
}

#[test]
fn refusals_write_nothing() {
    let mut out = MARK;
    let values = vec![7; 1024];
    for (count, depth) in [(0, 0), (7, 3), (9, 3), (512, 9), (1024, 10), (1, usize::MAX), (8, 64)] {
        assert_eq!(proved::root(&values[..count], depth, &mut out), 1);
    }
    for (size, depth) in
        [(0, 0), (3, 0), (99, 3), (101, 3), (NUMBER_BYTES + DIGEST_BYTES * 9, 9), (4, usize::MAX)]
    {
        assert_eq!(proved::leads_to(&vec![0; size], depth, 0, &mut out), 1);
    }
    assert_eq!(out, MARK);
    for (count, depth, position, size) in [
        (8, 3, 8, 100),
        (7, 3, 0, 100),
        (8, 3, 0, 99),
        (8, 3, 0, 101),
        (512, 9, 0, 292),
        (8, 3, usize::MAX, 100),
    ] {
        let mut opening = vec![0xAA; size];
        assert_eq!(proved::opening(&values[..count], depth, position, &mut opening), 1);
        assert_eq!(opening, vec![0xAA; size]);
    }
}
