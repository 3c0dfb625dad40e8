//! Checks 3 to 11: what the buffers hold. Checks 12 and 13 have files of their own.

use super::fold::{refusals_after, those_that, verdict, Fold, ITEM, ITEM_BYTES, OPENING_BYTES};
use super::{calls_that, refusals, refused, verdict_of};
use crate::{bytes, put, Call, Honest, Library, Name, Random};
use lomvuze_calls::layout::ItemLayout;
use lomvuze_reference::field::P;
use Name::{Cast, Decide, Fold as Folding, Open, Quotient, Verify};

/// The calls that run a check and read a buffer.
fn with(check: u32, buffer: &str) -> Vec<Name> {
    those_that(|name| name.runs(check) && name.reads(buffer))
}

// ---- Check 3

pub fn elements_below_p(by: &Library) {
    let encode = |number| verdict(by, Name::Encode, |all| put(&mut all["w"], 4, number));
    assert_eq!([encode(2013265920), encode(2013265921), encode(u32::MAX)], [0, 3, 3]);
    let second = ITEM.x().start + 4;
    let places = [
        ("a", 8),
        ("b", 8),
        ("c", 8),
        ("x", 4),
        ("w", 4),
        ("items", ITEM_BYTES + ITEM.e().start),
        ("items", second),
        ("wits", 12),
        ("openings", 8 * OPENING_BYTES),
        ("quotient", 0),
        ("new_item", second),
        ("item", second),
        ("wit", 0),
    ];
    for (buffer, at) in places {
        let refused_by_3 = refused(3, &with(3, buffer));
        assert!(!refused_by_3.is_empty());
        for number in [P, u32::MAX] {
            assert_eq!(
                refusals_after(by, |all| put(&mut all[buffer], at, number)),
                refused_by_3,
                "{buffer} at {at}"
            );
        }
    }
}

/// Every element that a call reads, in all calls: p - 1 passes check 3, and p and more do not. A call that compares no elements
/// accepts it, but for a first input, which is 13's.
pub fn every_element(by: &Library) {
    let mut random = Random::new(65);
    for name in calls_that(|name| name.runs(3)) {
        let list = Honest::random(&mut random, 1, 2, 2, 2);
        let call = Call::over(&mut random, name, list, 2);
        for i in 0..call.inputs.len() {
            for at in call.elements_of(i) {
                let with = |number: u32| {
                    let mut changed = call.clone();
                    put(&mut changed.inputs[i], at, number);
                    verdict_of(by, &changed)
                };
                assert_ne!(with(P - 1), 3, "{name:?}, input {i} at {at}");
                if name.checks().iter().all(|check| [2, 3, 12, 13].contains(check)) {
                    let first = call.first_inputs_of(i).contains(&at);
                    assert_eq!(with(P - 1), if first { 13 } else { 0 }, "{name:?}, input {i} at {at}");
                }
                assert_eq!([P, P + 1, u32::MAX].map(with), [3; 3], "{name:?}, input {i} at {at}");
            }
        }
    }
}

/// r counts too, in an item with m = 1.
pub fn r_below_p(by: &Library) {
    let mut item = vec![0; ItemLayout { m: 1, n: 1 }.bytes()];
    let mut cast = |r| by.cast(1, 1, 2, &[], &[], &[], &[], &bytes(&[r]), &bytes(&[1]), &[0; 8], &mut item);
    assert_eq!((cast(P - 1), cast(P)), (0, 3));
}

// ---- Check 4

pub fn entries_inside_and_in_order(by: &Library) {
    for list in ["a", "b", "c"] {
        let with_entries = |entries: &[u32]| refusals_after(by, |all| all[list] = bytes(entries));
        let expected = refused(4, &with(4, list));
        assert_eq!(expected.len(), 4);
        assert_eq!(with_entries(&[1, 0, 1]), expected, "a row too high");
        assert_eq!(with_entries(&[0, 4, 1]), expected, "a column too high");
        assert_eq!(with_entries(&[0, 1, 0, 0, 1, 0]), expected, "an entry twice");
        assert_eq!(with_entries(&[0, 2, 0, 0, 1, 0]), expected, "columns descend");
        assert_eq!(with_entries(&[u32::MAX, 0, 1]), expected);
        assert_eq!(with_entries(&[0, u32::MAX, 1]), expected);
    }
    // Row first, then column.
    let mut item = vec![0; ItemLayout { m: 1, n: 1 }.bytes()];
    let mut cast = |entries: &[u32]| {
        by.cast(1, 1, 2, &[], &bytes(entries), &[], &[], &[0; 4], &bytes(&[1]), &[0; 8], &mut item)
    };
    assert_eq!(cast(&[0, 2, 1, 1, 0, 1]), 0);
    assert_eq!(cast(&[1, 0, 1, 0, 2, 1]), 4);
    assert_eq!(cast(&[0, 2, 1, 1, 2, 1]), 0);
}

// ---- Checks 5 and 6

pub fn challenges(by: &Library) {
    let fold = |challenge| verdict(by, Folding, |all| all.challenge = challenge);
    assert_eq!([0, 1, 2, P - 1, P, u32::MAX].map(fold), [5, 5, 0, 0, 5, 5]);
    // At another challenge the fold's new item is another one.
    let verify = |challenge| verdict(by, Verify, |all| all.challenge = challenge);
    assert_eq!([0, 1, 2, 3, P - 1, P, u32::MAX].map(verify), [5, 5, 0, 7, 7, 5, 5]);
}

/// For every count of items, in all calls that take a challenge: l and p - 1 pass check 5, and what lies beside them does not.
pub fn every_challenge(by: &Library) {
    let mut random = Random::new(66);
    for name in calls_that(|name| name.runs(5)) {
        for l in 1..=8 {
            let list = Honest::random(&mut random, 1, 2, 2, l);
            let call = Call::over(&mut random, name, list, 3);
            let with = |challenge: u32| {
                let mut changed = call.clone();
                changed.set("challenge", challenge);
                verdict_of(by, &changed)
            };
            assert!([l, l + 1, P - 1].map(with).iter().all(|verdict| *verdict != 5), "{name:?}, {l} items");
            assert_eq!([0, l - 1, P, P + 1, u32::MAX].map(with), [5; 5], "{name:?}, {l} items");
        }
    }
    let draw = |challenge| verdict(by, Name::DrawPositions, |all| all.challenge = challenge);
    assert_eq!([0, 1, 2, 3, P - 1, P, u32::MAX].map(draw), [5, 5, 0, 0, 0, 5, 5]);
}

pub fn positions(by: &Library) {
    for position in [8, u32::MAX] {
        let refusals = refusals_after(by, |all| put(&mut all["positions"], 8, position));
        assert_eq!(refusals, refused(6, &[Open, Verify]));
    }
    // The openings of position 4 do not lead to the roots from position 7.
    assert_eq!(refusals_after(by, |all| put(&mut all["positions"], 8, 7)), refused(8, &[Verify]));
}

// ---- Checks 7 to 11

pub fn new_items(by: &Library) {
    let second = ITEM.x().start + 4;
    assert_eq!(verdict(by, Verify, |all| put(&mut all["new_item"], ITEM.e().start, 9)), 7);
    assert_eq!(verdict(by, Verify, |all| put(&mut all["new_item"], second, 35)), 7);
    assert_eq!(verdict(by, Verify, |all| put(&mut all["quotient"], 0, 5)), 7);
    assert_eq!(verdict(by, Verify, |all| put(&mut all["items"], ITEM_BYTES + ITEM.e().start, 1)), 7);
    // Z(2) = 2: the quotient and e may change together.
    let both = |all: &mut Fold| {
        put(&mut all["quotient"], 0, 5);
        put(&mut all["new_item"], ITEM.e().start, 10);
    };
    assert_eq!(verdict(by, Verify, both), 0);
}

pub fn each_opening_counts(by: &Library) {
    for opening in 0..9 {
        for byte in [4, 4 + 31, OPENING_BYTES - 1] {
            let change = |all: &mut Fold| all["openings"][opening * OPENING_BYTES + byte] ^= 1;
            assert_eq!(verdict(by, Verify, change), 8);
        }
        assert_eq!(verdict(by, Verify, |all| put(&mut all["openings"], opening * OPENING_BYTES, 1)), 8);
    }
    let last = ITEM.root().end - 1;
    assert_eq!(verdict(by, Verify, |all| all["items"][ITEM_BYTES + last] ^= 1), 8);
    assert_eq!(verdict(by, Verify, |all| all["new_item"][last] ^= 1), 8);
}

/// The openings lead to their roots, and are no combination.
pub fn values_combine(by: &Library) {
    assert_eq!(verdict(by, Verify, Fold::show_item_1_as_the_new_one), 9);
}

pub fn roots_and_claims(by: &Library) {
    let (last, second) = (ITEM.root().end - 1, ITEM.x().start + 4);
    let items = refusals_after(by, |all| all["items"][last] ^= 1);
    assert_eq!(items, refusals(&[(10, &[Quotient, Folding]), (8, &[Verify])]));
    assert_eq!(refusals_after(by, |all| put(&mut all["wits"], 12, 6)), refused(10, &[Quotient, Folding]));
    assert_eq!(refusals_after(by, |all| all["new_item"][last] ^= 1), refused(8, &[Verify]));
    assert_eq!(refusals_after(by, |all| all["item"][last] ^= 1), refused(10, &[Decide]));
    assert_eq!(refusals_after(by, |all| put(&mut all["x"], 4, 7)), refused(11, &[Cast]));
    let claims = refusals_after(by, |all| put(&mut all["items"], ITEM_BYTES + second, 21));
    assert_eq!(claims, refusals(&[(11, &[Quotient, Folding]), (7, &[Verify])]));
    let new = refusals_after(by, |all| all.put_new_item(ITEM.e().start, 9));
    assert_eq!(new, refusals(&[(7, &[Verify]), (11, &[Decide])]));
}
