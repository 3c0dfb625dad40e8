//! The order of the checks: the first that fails answers.

use super::fold::{refusals_after, verdict, Change, Fold, CALLS, OPENING_BYTES};
use super::{verdict_of, Refusals};
use crate::{bytes, put, Call, Library, Name, Random, NAMES};
use lomvuze_reference::field::P;

/// Every check of every call: alone, with each of the later ones, and with all of them.
pub fn every_pair_of_checks(by: &Library) {
    let mut random = Random::new(64);
    for name in NAMES {
        for _ in 0..10 {
            let call = Call::honest(&mut random, name);
            let checks = name.checks();
            for (i, check) in checks.iter().enumerate() {
                let later = &checks[i + 1..];
                let others = later.iter().map(std::slice::from_ref).chain([&[][..], later]);
                for others in others {
                    let mut call = call.clone();
                    others.iter().rev().for_each(|other| call.fail(&mut random, *other));
                    call.fail(&mut random, *check);
                    assert_eq!(verdict_of(by, &call), *check, "{name:?}: {check}, then {others:?}");
                }
            }
        }
    }
}

/// Changes of the fold, by hand, that make the checks fail one by one, from the last to the first: each makes its check fail,
/// in the calls that run it, and none before it.
const STEPS: [(u32, Change); 12] = [
    (11, |all| put(&mut all["c"], 8, 2)),
    (10, |all| {
        put(&mut all["wits"], 0, 9);
        put(&mut all["wit"], 0, 9);
    }),
    (9, Fold::show_item_1_as_the_new_one),
    (8, |all| all["openings"][8 * OPENING_BYTES + 5] ^= 1),
    (7, |all| put(&mut all["new_item"], 0, 1)),
    (6, |all| put(&mut all["positions"], 8, 8)),
    (5, |all| all.challenge = 0),
    (13, |all| all.put_first_inputs(&[0, 1], 2)),
    (4, |all| ["a", "b", "c"].into_iter().for_each(|list| put(&mut all[list], 0, 1))),
    (12, |all| all["points"] = bytes(&[1, 2, 3, 4, 5, 6, 7, 1])),
    (3, |all| {
        for buffer in ["w", "wits", "items", "new_item", "item", "wit", "x"] {
            put(&mut all[buffer], 0, P);
        }
    }),
    (2, |all| (all.k, all.n) = (3, 0)),
];

/// The verdict of a call is the number of the last change that concerns it. A sheet is none of the buffers that change.
pub fn by_hand(by: &Library) {
    for changes in 1..=STEPS.len() {
        let last = |name: Name| {
            let numbers = STEPS[..changes].iter().rev().map(|(number, _)| *number);
            numbers.into_iter().find(|number| name != Name::ReadSheet && name.runs(*number))
        };
        let expected: Refusals = CALLS.into_iter().filter_map(|name| Some((name, last(name)?))).collect();
        let change = |all: &mut Fold| STEPS[..changes].iter().for_each(|(_, change)| change(all));
        assert_eq!(refusals_after(by, change), expected, "{changes} changes");
    }
}

/// A check covers the whole input before the next one runs. The values of no position combine, and the last opening
/// of the last position does not lead to its root: 8 before 9, though 9 fails at an earlier position.
pub fn each_check_covers_all_positions(by: &Library) {
    assert_eq!(verdict(by, Name::Verify, Fold::show_item_1_as_the_new_one), 9);
    for opening in 0..9 {
        let change = |all: &mut Fold| {
            all.show_item_1_as_the_new_one();
            all["openings"][(opening + 1) * OPENING_BYTES - 1] ^= 1;
        };
        assert_eq!(verdict(by, Name::Verify, change), 8, "opening {opening}");
    }
}
