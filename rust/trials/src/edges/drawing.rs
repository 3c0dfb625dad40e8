//! Drawing by hash: what the buffers hold. Sizes, lengths and the order of the checks are tested for all calls, and what is
//! drawn has a file of its own.

use super::draw::{Change, Draw};
use super::{accepted, refused, Refusals};
use crate::{put, Library, Name};
use lomvuze_calls::layout::ItemLayout;
use lomvuze_reference::field::P;

/// An item with m = 1 and n = 2.
const ITEM: ItemLayout = ItemLayout { m: 1, n: 2 };

/// The calls that are refused after changes of two items with m = 1 and n = 2.
fn refusals_after(by: &Library, changes: &[Change]) -> Refusals {
    let mut draw = Draw::of(1, 2, 2, 2, 3);
    changes.iter().for_each(|change| change(&mut draw));
    draw.refusals(by)
}

/// A digest has no numbers.
pub fn digests_of_any_bytes(by: &Library) {
    let greatest = |draw: &mut Draw| {
        draw.items.chunks_mut(ITEM.bytes()).for_each(|item| item[ITEM.root()].fill(0xFF));
        draw.seed.fill(0xFF);
        draw.root.fill(0xFF);
    };
    assert_eq!(refusals_after(by, &[greatest]), accepted());
}

/// Check 3: in an item, in the quotient, in a first input.
const ELEMENTS: [Change; 3] = [
    |draw| [&mut draw.items[ITEM.bytes()..], &mut draw.x[4..]].into_iter().for_each(|part| put(part, 0, P)),
    |draw| [&mut draw.quotient[4..], &mut draw.x[4..]].into_iter().for_each(|part| put(part, 0, P)),
    |draw| {
        put(&mut draw.items, ITEM.bytes() + ITEM.first_input().start, P + 1);
        put(&mut draw.x, 0, P + 1);
    },
];

/// Check 13: in the first item and in the last.
const FIRST_INPUTS: [Change; 2] = [
    |draw| {
        put(&mut draw.items, ITEM.first_input().start, 2);
        put(&mut draw.x, 0, 2);
    },
    |draw| {
        put(&mut draw.items, ITEM.bytes() + ITEM.first_input().start, 0);
        put(&mut draw.x, 0, 0);
    },
];

/// Check 3 covers all items and the quotient before 13 looks at the first input.
pub fn elements_before_first_inputs(by: &Library) {
    let calls = [Name::DrawChallenge, Name::DrawR];
    for first_inputs in FIRST_INPUTS {
        assert_eq!(refusals_after(by, &[first_inputs]), refused(13, &calls));
        for elements in ELEMENTS {
            assert_eq!(refusals_after(by, &[elements]), refused(3, &calls));
            assert_eq!(refusals_after(by, &[first_inputs, elements]), refused(3, &calls));
        }
    }
}
