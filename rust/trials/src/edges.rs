//! The edges of the checks: the first value that fails beside the last that passes, the order of the checks, and that a
//! refusal writes nothing. Each is a function of the library that is tested; `edge_tests!` makes a test of each.
//!
//! [`lengths`], [`limits`] and [`order`] come from the description, for all calls; the others are about certain checks.

pub mod accepted;
pub mod blocks;
pub mod contents;
pub mod draw;
pub mod drawing;
pub mod drawn;
pub mod fold;
pub mod leading_one;
pub mod leaves;
pub mod lengths;
pub mod limits;
pub mod order;
pub mod points;

use crate::answer::verdict;
use crate::{Call, Library, Name, NAMES};
use std::collections::BTreeMap;

/// The calls that are refused, each with the number of the check.
pub type Refusals = BTreeMap<Name, u32>;

/// No call is refused.
pub fn accepted() -> Refusals {
    Refusals::new()
}

/// These calls are refused by a check, and no others.
pub fn refused(check: u32, calls: &[Name]) -> Refusals {
    calls.iter().map(|name| (*name, check)).collect()
}

/// The same for several checks.
pub fn refusals(by_check: &[(u32, &[Name])]) -> Refusals {
    by_check.iter().flat_map(|(check, calls)| refused(*check, calls)).collect()
}

/// One check refuses, in some calls, and no other. Where it is 10, verifying sees other roots too: by 8.
fn assert_alone(check: u32, refusals: &Refusals) {
    assert!(refusals.values().any(|by| *by == check), "check {check} alone: {refusals:?}");
    let others = refusals.iter().filter(|(_, by)| **by != check);
    assert!(others.into_iter().all(|refused| (check, refused) == (10, (&Name::Verify, &8))), "{refusals:?}");
}

/// The calls of which something holds.
pub fn calls_that(holds: impl Fn(Name) -> bool) -> Vec<Name> {
    NAMES.into_iter().filter(|name| holds(*name)).collect()
}

/// The verdict of a call. Its answer is one that it may give, it leaves what it reads, and a refusal writes nothing.
pub fn verdict_of(by: &Library, call: &Call) -> u32 {
    let mut after = call.clone();
    let answer = after.run(by);
    assert!(call.permits(answer), "{:?} answers {answer}", call.name);
    assert_eq!(after.inputs, call.inputs, "{:?} wrote to what it reads", call.name);
    assert!(verdict(answer) == 0 || after == *call, "a refusal by {answer} wrote: {call:?}");
    verdict(answer)
}
