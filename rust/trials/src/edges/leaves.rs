//! Leaves name their positions: roots and openings are those of trees over positions and values, and an opening leads
//! to its root from its own position alone.

use super::fold::{refusals_after, verdict, Fold, ITEM, OPENING, OPENING_BYTES};
use super::{refusals, refused};
use crate::{answer, bytes, Library, Name};
use lomvuze_calls::layout::OpeningLayout;
use lomvuze_reference::field::Element;
use lomvuze_reference::{code, tree};
use Name::{Decide, Fold as Folding, Quotient, Verify};

/// The positions and the witnesses of the fold.
const POSITIONS: [usize; 3] = [0, 7, 4];
const WITNESSES: [[u32; 2]; 3] = [[2, 3], [4, 5], [6, 7]];

/// The openings of all positions.
fn open_all(by: &Library, k: u32, w: &[u8]) -> Vec<Vec<u8>> {
    let length = OpeningLayout { k }.bytes();
    let (positions, mut openings) = ((0..4 * k).collect::<Vec<_>>(), vec![0; 4 * k as usize * length]);
    assert_eq!(by.open(k, 4 * k, &[], w, &bytes(&positions), &mut openings), 0);
    openings.chunks(length).map(<[u8]>::to_vec).collect()
}

/// The tree is that of RFC 6962 over entries of eight bytes, position and value. An opening has the value alone.
pub fn trees_over_positions_and_values(by: &Library) {
    for k in [2, 4, 8, 16, 32, 64] {
        let w = bytes(&(1..=k).collect::<Vec<_>>());
        let (mut code, mut root) = (vec![0; 16 * k as usize], [0; 32]);
        assert_eq!(by.encode(k, &[], &w, &mut code, &mut root), 0);
        let values: Vec<&[u8]> = code.chunks(4).collect();
        let entries: Vec<Vec<u8>> = values
            .iter()
            .zip(0u32..)
            .map(|(value, position)| [&position.to_le_bytes(), *value].concat())
            .collect();
        assert_eq!(root, tree::root(&entries));
        for (position, opening) in open_all(by, k, &w).into_iter().enumerate() {
            assert_eq!(opening, [values[position], tree::path(position, &entries).as_flattened()].concat());
        }
    }
}

// ---- Trees over values alone: their roots are digests like any other

fn values_alone(w: &[u32]) -> Vec<[u8; 4]> {
    let w: Vec<Element> = w.iter().map(|number| Element::new(*number).unwrap()).collect();
    code::codeword(&code::built_in_points(w.len()), &w)
        .iter()
        .map(|value| value.number().to_le_bytes())
        .collect()
}

/// Gives the items and the new item roots of values alone.
fn roots_of_values(all: &mut Fold) {
    let roots = WITNESSES.map(|w| tree::root(&values_alone(&w)));
    for (item, root) in all["items"].chunks_mut(ITEM.bytes()).zip(roots) {
        item[ITEM.root()].copy_from_slice(&root);
    }
    for buffer in ["new_item", "item"] {
        all[buffer][ITEM.root()].copy_from_slice(&roots[2]);
    }
}

/// Shows the openings that lead to such roots from the values alone.
fn openings_of_values(all: &mut Fold) {
    for (i, opening) in all["openings"].chunks_mut(OPENING_BYTES).enumerate() {
        let (position, values) = (POSITIONS[i / 3], values_alone(&WITNESSES[i % 3]));
        let path = tree::path(position, &values);
        let led = tree::leads_to(&opening[OPENING.value()], position, &path);
        assert_eq!(led.digest, tree::root(&values));
        opening[OPENING.siblings()].copy_from_slice(path.as_flattened());
    }
}

pub fn trees_over_values_alone(by: &Library) {
    let both = |all: &mut Fold| {
        roots_of_values(all);
        openings_of_values(all);
    };
    let other_roots = refusals(&[(10, &[Quotient, Folding, Decide]), (8, &[Verify])]);
    assert_eq!(refusals_after(by, roots_of_values), other_roots);
    assert_eq!(refusals_after(by, openings_of_values), refused(8, &[Verify]));
    assert_eq!(refusals_after(by, both), other_roots);
}

// ---- Openings at other positions

/// The codeword of (7, 0, .., 0) has 7 at every position: over values alone, the openings of all positions would be
/// equal. One that is filed for a position is accepted there, and refused at every other.
pub fn openings_of_a_constant_codeword(by: &Library) {
    for (k, filed) in [(2, (0..8).collect()), (64, vec![0, 1, 128, 255])] {
        let w = [vec![7], vec![0; k as usize - 1]].concat();
        let values = values_alone(&w);
        let mut item = vec![0; ITEM.bytes()];
        assert_eq!(by.cast(0, 2, k, &[], &[], &[], &[], &[], &bytes(&[1, 0]), &bytes(&w), &mut item), 0);
        let openings = open_all(by, k, &bytes(&w));
        for own in filed {
            assert_eq!(tree::path(own, &values), tree::path(0, &values));
            // A fold of one item gives the item back.
            let shown = openings[own].repeat(2);
            for position in 0..4 * k {
                let answer = by.verify(0, 2, k, 1, 1, 1, &item, &bytes(&[position]), &[], &item, &shown);
                // Of two openings, the first is refused at another position.
                let expected =
                    if position as usize == own { answer::after(2, k, 0) } else { answer::after(1, k, 8) };
                assert_eq!(answer, expected, "{own} at {position}");
            }
        }
    }
}

/// Swaps two parts of the same length.
fn swap(buffer: &mut [u8], length: usize, one: usize, other: usize) {
    let (front, back) = buffer.split_at_mut(other * length);
    front[one * length..][..length].swap_with_slice(&mut back[..length]);
}

pub fn swapped_openings(by: &Library) {
    for (one, other) in [(0, 1), (0, 2), (1, 2)] {
        for i in 0..3 {
            let of_one_item =
                |all: &mut Fold| swap(&mut all["openings"], OPENING_BYTES, 3 * one + i, 3 * other + i);
            assert_eq!(verdict(by, Verify, of_one_item), 8);
        }
        let of_all = |all: &mut Fold| swap(&mut all["openings"], 3 * OPENING_BYTES, one, other);
        assert_eq!(verdict(by, Verify, of_all), 8);
        let with_positions = |all: &mut Fold| {
            of_all(all);
            swap(&mut all["positions"], 4, one, other);
        };
        assert_eq!(verdict(by, Verify, with_positions), 0);
    }
}
