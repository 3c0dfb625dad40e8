//! Check 13: an item's first input is 1. Which items are tested, its place in the order, and that a folded item has it.

use super::fold::{refusals_after, those_that, Change, Fold, ITEM, ITEM_BYTES, OPENING_BYTES};
use super::{assert_alone, calls_that, refusals, refused, verdict_of};
use crate::{bytes, number_at, put, Call, Chain, Honest, Library, Name, Part, Random};
use lomvuze_calls::layout::ItemLayout;
use lomvuze_reference::claims::{self, Item};
use lomvuze_reference::field::{Element, P};
use lomvuze_reference::{element_bytes, item_bytes};
use std::collections::BTreeMap;
use Name::{Cast, Decide, DrawChallenge, DrawR, Fold as Folding, Quotient, Verify};

/// Elements other than 1.
const OTHERS: [u32; 4] = [0, 2, 1_000_000_007, P - 1];

/// The sizes m and n that items are tried with: r and x of the fewest numbers and of more.
const SIZES: [(u32, u32); 4] = [(0, 1), (6, 1), (0, 3), (6, 2)];

/// A call over an honest list of l items of these sizes.
fn sample(random: &mut Random, name: Name, (m, n): (u32, u32), l: u32) -> Call {
    let list = Honest::random(random, m, n, 2, l);
    Call::over(random, name, list, 2)
}

/// The verdict of a call with another number at some places of an input.
fn with_numbers(by: &Library, call: &Call, i: usize, places: &[usize], number: u32) -> u32 {
    let mut changed = call.clone();
    places.iter().for_each(|at| put(&mut changed.inputs[i], *at, number));
    verdict_of(by, &changed)
}

// ---- Which items are tested

/// Every item of every list by itself, all of them, and all but one.
pub fn every_item_counts(by: &Library) {
    let mut random = Random::new(30);
    for name in calls_that(|name| name.runs(13) && name.inputs().contains(&Part::Items)) {
        for l in 1..=8 {
            for sizes in SIZES {
                let call = sample(&mut random, name, sizes, l);
                assert_eq!(verdict_of(by, &call), 0, "{name:?}");
                every_item_of(by, &call);
            }
        }
    }
}

fn every_item_of(by: &Library, call: &Call) {
    let items = call.input_of(Part::Items).unwrap();
    let places = call.first_inputs_of(items);
    assert_eq!(places.len(), call.number("l"));
    for number in OTHERS {
        for i in 0..places.len() {
            let verdict = with_numbers(by, call, items, &places[i..=i], number);
            assert_eq!(verdict, 13, "{:?}, item {i}: {number}", call.name);
        }
        for several in [&places[..], &places[1..], &places[..places.len() - 1]] {
            let expected = if several.is_empty() { 0 } else { 13 };
            let verdict = with_numbers(by, call, items, several, number);
            assert_eq!(verdict, expected, "{:?}: {number}", call.name);
        }
    }
}

/// The x that casting and drawing r are lent, and the item that is decided.
pub fn one_item(by: &Library) {
    let mut random = Random::new(31);
    for (name, part) in [(Cast, Part::X), (DrawR, Part::X), (Decide, Part::OneItem)] {
        for sizes in SIZES {
            let call = sample(&mut random, name, sizes, 1);
            assert_eq!(verdict_of(by, &call), 0, "{name:?}");
            let i = call.input_of(part).unwrap();
            for number in OTHERS {
                let verdict = with_numbers(by, &call, i, &call.first_inputs_of(i), number);
                assert_eq!(verdict, 13, "{name:?}: {number}");
            }
        }
    }
}

/// Verifying compares the new item's x: another first input is 7. Deciding tests its item: 13.
pub fn the_new_item(by: &Library) {
    for number in OTHERS {
        let refusals_of_both = refusals_after(by, |all| all.put_new_item(ITEM.first_input().start, number));
        assert_eq!(refusals_of_both, refusals(&[(7, &[Verify]), (13, &[Decide])]));
    }
    let mut random = Random::new(32);
    for l in 1..=8 {
        for sizes in SIZES {
            let call = sample(&mut random, Verify, sizes, l);
            let i = call.input_of(Part::OneItem).unwrap();
            for number in OTHERS {
                let verdict = with_numbers(by, &call, i, &call.first_inputs_of(i), number);
                assert_eq!(verdict, 7, "{l} items: {number}");
            }
        }
    }
    // With an item's first input that another one makes up for: the sum of L_i(a) times both is 1 still.
    let both = |all: &mut Fold| {
        put(&mut all["items"], ITEM.first_input().start, 3);
        put(&mut all["items"], ITEM_BYTES + ITEM.first_input().start, 2);
    };
    assert_eq!(refusals_after(by, both), refused(13, &[Quotient, Folding, Verify, DrawChallenge]));
}

/// Beside the first input no number is asked to be 1, and none makes up for it.
pub fn other_numbers_are_free(by: &Library) {
    let cast = |r: u32, x: [u32; 2], w: u32| {
        let (r, x, w) = (bytes(&[r; 2]), bytes(&x), bytes(&[w; 2]));
        let mut item = vec![0; ItemLayout { m: 2, n: 2 }.bytes()];
        by.cast(2, 2, 2, &[], &[], &[], &[], &r, &x, &w, &mut item)
    };
    assert_eq!([cast(0, [1, 0], 0), cast(P - 1, [1, P - 1], 2), cast(1, [1, 1], 1)], [0; 3]);
    assert_eq!([cast(0, [0, 0], 0), cast(1, [0, 1], 1), cast(1, [P - 1, 1], 1)], [13; 3]);
}

/// With n = 1 it is the only input.
pub fn one_input(by: &Library) {
    let cast = |x: u32| {
        let mut item = vec![0; ItemLayout { m: 0, n: 1 }.bytes()];
        by.cast(0, 1, 2, &[], &[], &[], &[], &[], &bytes(&[x]), &bytes(&[2, 3]), &mut item)
    };
    assert_eq!([0, 1, 2, P - 1, P, P + 1, u32::MAX].map(cast), [13, 0, 13, 13, 3, 3, 3]);
}

// ---- The place of check 13

/// A number of p or more is 3, also where its remainder is 1.
pub fn first_inputs_of_p_or_more(by: &Library) {
    let first = ITEM.first_input().start;
    for number in [P, P + 1, u32::MAX] {
        let x = refusals_after(by, |all| put(&mut all["x"], 0, number));
        assert_eq!(x, refused(3, &[Cast, DrawR]));
        for at in [first, ITEM_BYTES + first] {
            let items = refusals_after(by, |all| put(&mut all["items"], at, number));
            assert_eq!(items, refused(3, &[Quotient, Folding, Verify, DrawChallenge]));
        }
        let new = refusals_after(by, |all| all.put_new_item(first, number));
        assert_eq!(new, refused(3, &[Verify, Decide]));
    }
}

/// Changes that make each of the other checks fail.
const OTHER_CHECKS: [(u32, Change); 13] = [
    (2, |all| all.k = 4),
    (3, |all| put(&mut all["wits"], 12, P)),
    (3, |all| put(&mut all["openings"], 8 * OPENING_BYTES, P)),
    (3, |all| put(&mut all["a"], 8, P)),
    (12, |all| all["points"] = bytes(&[1, 2, 3, 4, 5, 6, 7, 1])),
    (4, |all| put(&mut all["c"], 4, 4)),
    (5, |all| all.challenge = 1),
    (6, |all| put(&mut all["positions"], 8, 8)),
    (7, |all| put(&mut all["quotient"], 0, 5)),
    (8, |all| all["openings"][OPENING_BYTES - 1] ^= 1),
    (9, Fold::show_item_1_as_the_new_one),
    (10, Fold::change_roots),
    (11, |all| put(&mut all["c"], 8, 2)),
];

/// 13 comes after 2, 3, 12 and 4, and before 5 to 11: with a first input that is off in one of the items or in all.
pub fn the_place_of_check_13(by: &Library) {
    for (number, other) in OTHER_CHECKS {
        let alone = refusals_after(by, other);
        assert_alone(number, &alone);
        for items in [&[0][..], &[1], &[0, 1]] {
            let both = |all: &mut Fold| {
                other(all);
                all.put_first_inputs(items, 2);
            };
            let mut expected = alone.clone();
            for name in those_that(|name| name.runs(13) && name != Name::ReadSheet) {
                if !alone.get(&name).is_some_and(|check| [2, 3, 12, 4].contains(check)) {
                    expected.insert(name, 13);
                }
            }
            assert_eq!(refusals_after(by, both), expected, "check {number} and items {items:?}");
        }
    }
}

// ---- Folded items

fn random_challenge(random: &mut Random, l: u32) -> u32 {
    [l, P - 1, l + random.below((P - l) as usize) as u32][random.below(3)]
}

/// A folded item has 1 as first input.
pub fn folds_of_honest_lists(by: &Library) {
    let mut random = Random::new(33);
    for i in 0..200 {
        let list = if i < 20 { Honest::of_any_size(&mut random) } else { Honest::of_small_size(&mut random) };
        let challenge = random_challenge(&mut random, list.l);
        let chain = Chain::new(by, &list, challenge, &[0]);
        assert_eq!(number_at(&chain.new_item, list.item_layout().first_input().start), 1);
        chain.assert_accepted(by, &list);
    }
}

/// The same where verifying is shown any claims and any quotient, and accepts: deciding mostly answers 11, and never 13.
pub fn folds_of_lists_that_do_not_hold(by: &Library) {
    let (mut random, mut answers) = (Random::new(34), BTreeMap::new());
    for _ in 0..200 {
        let mut list = Honest::of_small_size(&mut random);
        let challenge = random_challenge(&mut random, list.l);
        let mut chain = Chain::new(by, &list, challenge, &[0, 1]);

        let (m, layout) = (list.m as usize, list.item_layout());
        let mut items = vec![];
        for bytes in list.items.chunks_mut(layout.bytes()) {
            let (e_r, x) = (random.elements(1 + m), random.inputs(list.n as usize));
            let root = bytes[layout.root()].try_into().unwrap();
            let item = Item { e: e_r[0], r: e_r[1..].to_vec(), x, root };
            bytes.copy_from_slice(&item_bytes(&item));
            items.push(item);
        }
        let quotient = random.elements(claims::quotient_count(m, items.len()));
        chain.quotient = element_bytes(&quotient);
        let (r, x, e) = claims::fold_claim(&items, &quotient, Element::new(challenge).unwrap());
        assert_eq!(x[0].number(), 1);
        let root = chain.new_item[layout.root()].try_into().unwrap();
        chain.new_item = item_bytes(&Item { e, r, x, root });
        assert_eq!(chain.verify(by, &list), chain.accepted(&list));
        *answers.entry(chain.decide(by, &list)).or_insert(0) += 1;
    }
    assert!(answers.keys().all(|answer| [0, 11].contains(answer)) && answers[&11] > 150, "{answers:?}");
}
