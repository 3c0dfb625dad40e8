//! The caller's own evaluation points: their lengths, check 12 and its place in the order, and what the calls write at
//! them.

use super::fold::{refusals_after, those_that, verdict, Change, Fold, OPENING_BYTES};
use super::{accepted, assert_alone, calls_that, refused, Refusals};
use crate::{bytes, number_at, points, put, Call, Chain, Honest, Library, Name, Random};
use lomvuze_reference::field::P;
use Name::{Decide, Fold as Folding, Quotient, Verify};

/// Points for k = 2, the least and the greatest element among them.
const POINTS: [u32; 8] = [0, 1, P - 1, 7, 2, 1_000_000_007, P - 2, 3];

/// The calls that take points are refused by a check.
fn refused_points(check: u32) -> Refusals {
    refused(check, &those_that(Name::takes_points))
}

/// The calls that are refused where all are lent the points above, after a change.
fn refusals_lent(by: &Library, change: impl Fn(&mut Fold)) -> Refusals {
    let mut all = Fold::lent(by, &POINTS);
    change(&mut all);
    all.refusals(by)
}

/// Codeword and root of w.
fn encode(by: &Library, k: u32, points: &[u8], w: &[u8]) -> (Vec<u8>, [u8; 32]) {
    let (mut code, mut root) = (vec![0; 16 * k as usize], [0; 32]);
    assert_eq!(by.encode(k, points, w, &mut code, &mut root), 0);
    (code, root)
}

fn encode_answer(by: &Library, k: u32, points: &[u8]) -> u32 {
    let (mut code, mut root) = (vec![0; 16 * k as usize], [0; 32]);
    by.encode(k, points, &vec![1; 4 * k as usize], &mut code, &mut root)
}

// ---- What is written

pub fn a_chain_with_lent_points(by: &Library) {
    assert_eq!(refusals_lent(by, |_| ()), accepted());
    let (code, _) = encode(by, 2, &bytes(&POINTS), &bytes(&[2, 3]));
    assert_eq!(code, bytes(&[2, 5, P - 1, 23, 8, 986734102, P - 4, 11]));
}

pub fn chains_of_every_k(by: &Library) {
    let mut random = Random::new(20);
    for k in [2, 4, 8, 16, 32, 64] {
        let points = points::different(&mut random, k);
        let list = Honest::random(&mut random, 1, 2, k, 2).lent(points);
        let positions: Vec<u32> = (0..4 * k).step_by(3).collect();
        let chain = Chain::new(by, &list, 5, &positions);
        chain.assert_accepted(by, &list);
    }
}

/// The codeword by Horner's rule.
pub fn codewords_of_every_k(by: &Library) {
    let mut random = Random::new(21);
    for k in [2, 4, 8, 16, 32, 64] {
        let points = points::different(&mut random, k);
        let w: Vec<u32> = random.elements(k as usize).iter().map(|element| element.number()).collect();
        let (code, _) = encode(by, k, &points, &bytes(&w));
        for (point, value) in points.chunks(4).zip(code.chunks(4)) {
            let x = number_at(point, 0) as u64;
            let expected = w.iter().rev().fold(0, |sum, w| (sum * x + *w as u64) % P as u64);
            assert_eq!(number_at(value, 0) as u64, expected);
        }
    }
}

/// The built-in points lent by hand give what the empty buffer gives, in every call and for every k.
pub fn built_in_points_lent_by_hand(by: &Library) {
    let mut random = Random::new(22);
    for k in [2, 4, 8, 16, 32, 64] {
        for name in calls_that(Name::takes_points) {
            let list = Honest::random(&mut random, 2, 3, k, 3);
            let mut empty = Call::over(&mut random, name, list, 4);
            let mut by_hand = empty.clone();
            by_hand.inputs[0] = points::built_in(k);
            assert_eq!((empty.run(by), by_hand.run(by)), (0, 0), "{name:?}, k = {k}");
            assert_eq!(empty.outputs, by_hand.outputs, "{name:?}, k = {k}");
        }
    }
}

/// The order of the points is the order of the positions.
pub fn swapped_points(by: &Library) {
    let w = bytes(&[2, 3]);
    let (code, root) = encode(by, 2, &bytes(&POINTS), &w);
    for (i, j) in [(0, 1), (0, 7), (3, 4), (6, 7)] {
        let (mut points, mut expected) = (POINTS, code.clone());
        points.swap(i, j);
        put(&mut expected, 4 * i, number_at(&code, 4 * j));
        put(&mut expected, 4 * j, number_at(&code, 4 * i));
        let (swapped, other_root) = encode(by, 2, &bytes(&points), &w);
        assert_eq!(swapped, expected);
        assert_ne!(other_root, root);
        let mut openings = vec![0; 2 * OPENING_BYTES];
        let positions = bytes(&[i as u32, j as u32]);
        assert_eq!(by.open(2, 2, &bytes(&points), &w, &positions, &mut openings), 0);
        assert_eq!(openings[..4], code[4 * j..][..4]);
        assert_eq!(openings[OPENING_BYTES..][..4], code[4 * i..][..4]);
    }
}

// ---- Check 2

pub fn lengths_of_points(by: &Library) {
    let other = |length: usize| {
        refusals_lent(by, |all| {
            all["points"] = bytes(&(0..=length as u32).collect::<Vec<_>>())[..length].to_vec()
        })
    };
    // Eight numbers take 32 bytes.
    for length in [1, 3, 4, 16, 28, 31, 33, 36, 64, 65, 128] {
        assert_eq!(other(length), refused_points(2), "{length} bytes");
    }
    for k in [2, 4, 8, 16, 32, 64] {
        let points = points::built_in(64).repeat(2);
        let length = 16 * k as usize;
        for other in [length - 4, length + 4, length / 2, 2 * length, length - 1, length + 1] {
            assert_eq!(encode_answer(by, k, &points[..other]), 2, "k = {k}, {other} bytes");
        }
        assert_eq!((encode_answer(by, k, &points[..length]), encode_answer(by, k, &[])), (0, 0), "k = {k}");
    }
}

// ---- Check 12

/// Also where the remainder modulo p repeats no point.
pub fn points_below_p(by: &Library) {
    for i in 0..8 {
        for number in [P, P + 1, P + 5, u32::MAX] {
            assert_eq!(refusals_lent(by, |all| put(&mut all["points"], 4 * i, number)), refused_points(12));
        }
    }
    for k in [2, 4, 8, 16, 32, 64] {
        let mut points = points::built_in(k);
        put(&mut points, 16 * k as usize - 4, P);
        assert_eq!(encode_answer(by, k, &points), 12);
    }
}

pub fn no_point_repeats_another(by: &Library) {
    for (i, point) in POINTS.into_iter().enumerate() {
        for j in (0..8).filter(|j| *j != i) {
            let repeated = |all: &mut Fold| put(&mut all["points"], 4 * j, point);
            assert_eq!(refusals_lent(by, repeated), refused_points(12), "{i} at {j}");
        }
    }
    for k in [4, 8, 16, 32, 64] {
        let last = 4 * k as usize - 1;
        for (i, j) in
            [(0, last), (last, 0), (0, 1), (last - 1, last), (1, last / 2), (last / 2, last / 2 + 1)]
        {
            let mut points = points::built_in(k);
            let repeated = number_at(&points, 4 * i);
            put(&mut points, 4 * j, repeated);
            assert_eq!(encode_answer(by, k, &points), 12, "k = {k}, {i} at {j}");
        }
        assert_eq!(encode_answer(by, k, &vec![0; 16 * k as usize]), 12, "k = {k}");
    }
}

/// 12 comes after 2 and 3, and before all other checks. A point of p or more is 12 and never 3.
pub fn the_place_of_check_12(by: &Library) {
    let others: [(u32, Change); 9] = [
        (2, |all| all.k = 4),
        (3, |all| put(&mut all["w"], 4, P)),
        (3, |all| put(&mut all["a"], 8, P)),
        (4, |all| put(&mut all["a"], 0, 1)),
        (13, |all| all.put_first_inputs(&[0, 1], 0)),
        (5, |all| all.challenge = 1),
        (6, |all| put(&mut all["positions"], 8, 8)),
        (10, Fold::change_roots),
        (11, |all| put(&mut all["c"], 8, 2)),
    ];
    for (number, other) in others {
        let alone = refusals_lent(by, other);
        assert_alone(number, &alone);
        for (place, point) in [(7, 0), (4, 0), (0, P), (7, u32::MAX)] {
            let both = |all: &mut Fold| {
                other(all);
                put(&mut all["points"], place * 4, point);
            };
            let mut expected = alone.clone();
            for name in those_that(Name::takes_points) {
                if !alone.get(&name).is_some_and(|check| [2, 3].contains(check)) {
                    expected.insert(name, 12);
                }
            }
            assert_eq!(refusals_lent(by, both), expected, "check {number} and point {point}");
        }
    }
}

// ---- A chain whose calls are lent different points

/// Quotient, folding and deciding see another root than that of the items.
pub fn other_points_than_those_of_the_items(by: &Library) {
    let mut swapped = POINTS;
    swapped.swap(0, 7);
    let expected = refused(10, &[Quotient, Folding, Decide]);
    for other in [vec![], points::built_in(2), bytes(&swapped)] {
        assert_eq!(refusals_lent(by, |all| all["points"].clone_from(&other)), expected);
    }
    assert_eq!(refusals_after(by, |all| all["points"] = bytes(&POINTS)), expected);
}

/// Verifying knows no points, and refuses openings of other codewords: of all items, or of one.
pub fn openings_at_other_points(by: &Library) {
    let (lent, built_in) = (Fold::lent(by, &POINTS), Fold::new(by));
    let all_of_them = refusals_lent(by, |all| all["openings"].clone_from(&built_in["openings"]));
    assert_eq!(all_of_them, refused(8, &[Verify]));
    assert_eq!(verdict(by, Verify, |all| all["openings"].clone_from(&lent["openings"])), 8);
    for opening in 0..9 {
        let one = |all: &mut Fold| {
            let at = opening * OPENING_BYTES..(opening + 1) * OPENING_BYTES;
            all["openings"][at.clone()].copy_from_slice(&built_in["openings"][at]);
        };
        assert_eq!(refusals_lent(by, one), refused(8, &[Verify]), "opening {opening}");
    }
}
