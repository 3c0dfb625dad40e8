//! The blocks that verifying counts: whole openings, position by position and, within one, item by item, the new item
//! last, up to the first that does not lead to its root. Where a check before 8 refuses, none is hashed.

use super::fold::{Change, Fold, OPENING_BYTES};
use crate::answer::{after, after_all, blocks};
use crate::{bytes, number_at, put, Call, Chain, Honest, Library, Name, Part, Random};
use lomvuze_calls::layout::DIGEST_BYTES;
use lomvuze_reference::field::P;

const WITNESS_COUNTS: [u32; 6] = [2, 4, 8, 16, 32, 64];

/// A fold that is accepted, of l items at t positions.
fn fold(random: &mut Random, k: u32, l: u32, t: usize) -> Call {
    let list = Honest::random(random, 1, 2, k, l);
    Call::over(random, Name::Verify, list, t)
}

/// The answer after a change.
fn answer(by: &Library, call: &Call, change: impl FnOnce(&mut Call)) -> u64 {
    let mut changed = call.clone();
    change(&mut changed);
    changed.run(by)
}

fn input(call: &mut Call, part: Part) -> &mut [u8] {
    let i = call.input_of(part).unwrap();
    &mut call.inputs[i]
}

/// Another value in opening j.
fn change_value(call: &mut Call, j: usize) {
    let at = j * call.opening_layout().bytes();
    let openings = input(call, Part::OpeningsByPosition);
    let value = number_at(openings, at);
    put(openings, at, (value + 1) % P);
}

/// Another sibling in opening j, counted from the leaf.
fn change_sibling(call: &mut Call, j: usize, level: usize) {
    let layout = call.opening_layout();
    let at = j * layout.bytes() + layout.siblings().start + DIGEST_BYTES * level;
    input(call, Part::OpeningsByPosition)[at + (j + level) % DIGEST_BYTES] ^= 1;
}

/// Another root of item i, or of the new one.
fn change_root(call: &mut Call, i: usize) {
    let (l, layout) = (call.number("l"), call.item_layout());
    let (part, i) = if i < l { (Part::Items, i) } else { (Part::OneItem, 0) };
    input(call, part)[i * layout.bytes() + layout.root().end - 1] ^= 1;
}

// ---- Accepted folds

/// By hand: t × (l + 1) openings, each of one block for its leaf and two for each of log2(4k) inner nodes.
pub fn accepted_by_hand(by: &Library) {
    let mut random = Random::new(40);
    let counts = [(2, 1, 1, 14), (2, 2, 3, 63), (4, 3, 16, 576), (8, 8, 16, 1584), (64, 1, 2, 68)];
    for (k, l, t, count) in counts {
        let call = fold(&mut random, k, l, t);
        assert_eq!(answer(by, &call, |_| ()), 64 * count, "k = {k}, l = {l}, t = {t}");
    }
    assert_eq!(Fold::new(by).verified(by), 64 * 63);
}

pub fn accepted_folds(by: &Library) {
    let mut random = Random::new(41);
    for k in WITNESS_COUNTS {
        for l in 1..=8 {
            for t in [1, 3] {
                let call = fold(&mut random, k, l, t);
                assert_eq!(
                    answer(by, &call, |_| ()),
                    after_all(k, l, t as u32, 0),
                    "k = {k}, l = {l}, t = {t}"
                );
            }
        }
    }
}

/// A position that is asked for again is opened and hashed again.
pub fn repeated_positions(by: &Library) {
    let mut random = Random::new(42);
    let list = Honest::random(&mut random, 1, 2, 4, 2);
    for positions in [&[5][..], &[5, 5], &[5, 5, 5, 5], &[0, 15, 0], &[7; 16]] {
        let chain = Chain::new(by, &list, 9, positions);
        let t = positions.len();
        assert_eq!(chain.verify(by, &list), 64 * 27 * t as u64, "{positions:?}");
        let (mut damaged, last) = (chain.clone(), 3 * t - 1);
        damaged.openings[last * list.opening_length() + list.opening_layout().siblings().start] ^= 1;
        assert_eq!(damaged.verify(by, &list), after(3 * t, 4, 8), "{positions:?}");
    }
}

/// 256 × 9 × 17 blocks: the greatest count.
pub fn the_greatest_count(by: &Library) {
    let mut random = Random::new(43);
    let list = Honest::random(&mut random, 0, 1, 64, 8);
    let positions: Vec<u32> = (0..256).rev().collect();
    let chain = Chain::new(by, &list, 8, &positions);
    assert_eq!(chain.verify(by, &list), 64 * 39_168);
    for j in [0, 1, 8, 9, 1000, 2302, 2303] {
        let mut damaged = chain.clone();
        let sibling = list.opening_layout().siblings().start + DIGEST_BYTES * (j % 8);
        damaged.openings[j * list.opening_length() + sibling] ^= 1;
        assert_eq!(damaged.verify(by, &list), 64 * 17 * (j as u64 + 1) + 8, "opening {j}");
    }
}

// ---- Openings that do not lead to their roots

/// Every opening by itself: its value, and each of its siblings.
pub fn every_opening(by: &Library) {
    let mut random = Random::new(44);
    for k in WITNESS_COUNTS {
        for l in 1..=8 {
            let call = fold(&mut random, k, l, 2);
            for j in 0..call.openings() {
                let expected = after(j + 1, k, 8);
                assert_eq!(
                    answer(by, &call, |call| change_value(call, j)),
                    expected,
                    "k = {k}, l = {l}, {j}"
                );
                for level in 0..call.opening_layout().depth() {
                    let counted = answer(by, &call, |call| change_sibling(call, j, level));
                    assert_eq!(counted, expected, "k = {k}, l = {l}, {j}, level {level}");
                }
            }
        }
    }
}

/// With another root, no opening of the item leads to it: the one at the first position counts.
pub fn every_root(by: &Library) {
    let mut random = Random::new(45);
    for k in WITNESS_COUNTS {
        for l in 1..=8 {
            let call = fold(&mut random, k, l, 2);
            for i in 0..=l as usize {
                let counted = answer(by, &call, |call| change_root(call, i));
                assert_eq!(counted, after(i + 1, k, 8), "k = {k}, l = {l}, item {i}");
            }
        }
    }
}

/// With another position, no opening shown there leads to its root: that of the first item counts.
pub fn every_position(by: &Library) {
    let mut random = Random::new(46);
    let call = fold(&mut random, 8, 3, 5);
    for q in 0..5 {
        let counted = answer(by, &call, |call| {
            let positions = input(call, Part::Positions);
            let position = number_at(positions, 4 * q);
            put(positions, 4 * q, (position + 1) % 32);
        });
        assert_eq!(counted, after(4 * q + 1, 8, 8), "position {q}");
    }
}

/// Of two, the first counts, whichever of its bytes is changed; where all fail, one is hashed.
pub fn two_openings(by: &Library) {
    let mut random = Random::new(47);
    let call = fold(&mut random, 2, 2, 3);
    for first in 0..9 {
        for other in first + 1..9 {
            let counted = answer(by, &call, |call| {
                change_value(call, other);
                change_sibling(call, first, 2);
            });
            assert_eq!(counted, after(first + 1, 2, 8), "{first} and {other}");
            let counted = answer(by, &call, |call| {
                change_sibling(call, other, 0);
                change_value(call, first);
            });
            assert_eq!(counted, after(first + 1, 2, 8), "{first} and {other}");
        }
    }
    assert_eq!(answer(by, &call, |call| (0..9).for_each(|j| change_value(call, j))), after(1, 2, 8));
}

// ---- Other refusals

/// Check 9 refuses when all openings are hashed.
pub fn values_that_do_not_combine(by: &Library) {
    let mut random = Random::new(48);
    for k in WITNESS_COUNTS {
        for l in 1..=8 {
            let mut call = fold(&mut random, k, l, 2);
            call.fail(&mut random, 9);
            assert_eq!(answer(by, &call, |_| ()), after_all(k, l, 2, 9), "k = {k}, l = {l}");
            let last = call.openings() - 1;
            assert_eq!(answer(by, &call, |call| change_value(call, last)), after_all(k, l, 2, 8));
        }
    }
    let mut all = Fold::new(by);
    all.show_item_1_as_the_new_one();
    assert_eq!(all.verified(by), 64 * 63 + 9);
}

/// A check before 8 answers its bare number: alone, with each opening damaged, and with 9 failing too.
pub fn refusals_before_any_hashing(by: &Library) {
    let mut random = Random::new(49);
    for check in [2, 3, 13, 5, 6, 7] {
        for l in 1..=8 {
            let call = fold(&mut random, 2, l, 3);
            for later in [&[][..], &[8], &[9], &[9, 8]] {
                let mut call = call.clone();
                later.iter().for_each(|later| call.fail(&mut random, *later));
                call.fail(&mut random, check);
                assert_eq!(answer(by, &call, |_| ()), check as u64, "check {check}, and {later:?}");
            }
        }
    }
    let call = fold(&mut random, 2, 2, 3);
    for j in 0..9 {
        let counted = answer(by, &call, |call| {
            change_value(call, j);
            let new_e = number_at(input(call, Part::OneItem), 0);
            put(input(call, Part::OneItem), 0, (new_e + 1) % P);
        });
        assert_eq!(counted, 7, "opening {j}");
    }
}

/// The numbers of the checks before 8 by hand.
pub fn bare_numbers_by_hand(by: &Library) {
    let refused: [(u64, Change); 8] = [
        (2, |all| all.t = 0),
        (2, |all| all["openings"].truncate(9 * OPENING_BYTES - 1)),
        (3, |all| put(&mut all["openings"], 8 * OPENING_BYTES, P)),
        (13, |all| all.put_first_inputs(&[0], 2)),
        (5, |all| all.challenge = 1),
        (6, |all| all["positions"] = bytes(&[0, 7, 8])),
        (7, |all| all.put_new_item(0, 9)),
        (7, |all| put(&mut all["quotient"], 0, 5)),
    ];
    for (number, change) in refused {
        let mut all = Fold::new(by);
        change(&mut all);
        assert_eq!((all.verified(by), blocks(all.verified(by))), (number, 0));
    }
}
