//! Folds of items: made and verified.

#![allow(clippy::too_many_arguments)]

use crate::checks::*;
use crate::claims::{self, Circuit, Item};
use crate::code;
use crate::field::Element;
use crate::sha256::Digest;
use crate::tree;

/// A list of items with its circuit, its witnesses and the points of their codewords.
struct List {
    points: Vec<Element>,
    circuit: Circuit,
    items: Vec<Item>,
    witnesses: Vec<Vec<Element>>,
}

impl List {
    /// Runs checks 3, 12, 4 and 13.
    fn read(
        (m, n, k): (usize, usize, usize),
        points: &[u8],
        [a, b, c]: [&[u8]; 3],
        items_in: &[u8],
        witnesses_in: &[u8],
    ) -> Result<List, Refusal> {
        let circuit = circuit(a, b, c)?;
        let items = items(items_in, m, n)?;
        let witnesses = witnesses(witnesses_in, k)?;

        let points = check_points(points, k)?;
        check_circuit(&circuit, m, n, k)?;
        check_first_inputs(&items)?;
        Ok(List { points, circuit, items, witnesses })
    }

    /// Runs checks 10 and 11.
    fn check_claims(&self) -> Result<(), Refusal> {
        let pairs = || self.items.iter().zip(&self.witnesses);
        check(10, pairs().all(|(item, w)| claims::matches(&self.points, item, w)))?;
        check(11, pairs().all(|(item, w)| claims::holds(&self.circuit, item, w)))
    }

    fn quotient(&self) -> Result<Vec<Element>, Refusal> {
        claims::quotient(&self.circuit, &self.items, &self.witnesses).ok_or(11)
    }
}

/// Writes the quotient of l items. Checks 2, 3, 12, 4, 13, 10 and 11.
pub fn quotient(
    m: u32,
    n: u32,
    k: u32,
    l: u32,
    points: &[u8],
    a: &[u8],
    b: &[u8],
    c: &[u8],
    items_in: &[u8],
    witnesses_in: &[u8],
    quotient_out: &mut [u8],
) -> u32 {
    verdict(|| {
        let (m, n, k, l) = (size_m(m)?, size_n(n)?, size_k(k)?, size_l(l)?);
        points_length(points, k)?;
        entry_counts([a, b, c])?;
        length(items_in, l * item_length(m, n))?;
        length(witnesses_in, l * 4 * k)?;
        length(quotient_out, quotient_length(m, l))?;

        let list = List::read((m, n, k), points, [a, b, c], items_in, witnesses_in)?;
        list.check_claims()?;

        quotient_out.copy_from_slice(&element_bytes(&list.quotient()?));
        Ok(())
    })
}

/// Writes the quotient of l items, and the new item and witness for a challenge. Checks 2, 3, 12, 4, 13, 5, 10
/// and 11.
pub fn fold(
    m: u32,
    n: u32,
    k: u32,
    l: u32,
    challenge: u32,
    points: &[u8],
    a: &[u8],
    b: &[u8],
    c: &[u8],
    items_in: &[u8],
    witnesses_in: &[u8],
    quotient_out: &mut [u8],
    item_out: &mut [u8],
    witness_out: &mut [u8],
) -> u32 {
    verdict(|| {
        let (m, n, k, l) = (size_m(m)?, size_n(n)?, size_k(k)?, size_l(l)?);
        points_length(points, k)?;
        entry_counts([a, b, c])?;
        length(items_in, l * item_length(m, n))?;
        length(witnesses_in, l * 4 * k)?;
        length(quotient_out, quotient_length(m, l))?;
        length(item_out, item_length(m, n))?;
        length(witness_out, 4 * k)?;

        let list = List::read((m, n, k), points, [a, b, c], items_in, witnesses_in)?;
        let challenge = check_challenge(challenge, l)?;
        list.check_claims()?;

        let quotient = list.quotient()?;
        let (r, x, e) = claims::fold_claim(&list.items, &quotient, challenge);
        let w = claims::fold_witness(&list.witnesses, challenge);
        let root = code::root(&list.points, &w);
        quotient_out.copy_from_slice(&element_bytes(&quotient));
        item_out.copy_from_slice(&item_bytes(&Item { e, r, x, root }));
        witness_out.copy_from_slice(&element_bytes(&w));
        Ok(())
    })
}

/// Verifies a fold of l items at t positions. Checks 2, 3, 13 (over the l items; the new one's x is check 7's), and 5
/// to 9. Returns 64 times the number of SHA-256 blocks that were processed up to the verdict, plus the verdict.
pub fn verify(
    m: u32,
    n: u32,
    k: u32,
    l: u32,
    t: u32,
    challenge: u32,
    items_in: &[u8],
    positions: &[u8],
    quotient: &[u8],
    new_item: &[u8],
    openings_in: &[u8],
) -> u64 {
    let mut blocks = 0;
    let verdict = verdict(|| {
        let (m, n, k, l) = (size_m(m)?, size_n(n)?, size_k(k)?, size_l(l)?);
        let t = size_t(t, k)?;
        length(items_in, l * item_length(m, n))?;
        length(positions, 4 * t)?;
        length(quotient, quotient_length(m, l))?;
        length(new_item, item_length(m, n))?;
        length(openings_in, t * (l + 1) * opening_length(k))?;

        let items = items(items_in, m, n)?;
        let quotient = elements(quotient)?;
        let new = item(new_item, m, n)?;
        let openings = openings(openings_in, k)?;

        check_first_inputs(&items)?;
        let challenge = check_challenge(challenge, l)?;
        let positions = check_positions(positions, k)?;

        let roots: Vec<Digest> = items.iter().map(|item| item.root).chain([new.root]).collect();
        check(7, claims::fold_claim(&items, &quotient, challenge) == (new.r, new.x, new.e))?;
        check_openings(&roots, &positions, &openings, &mut blocks)?;
        check_values(l, challenge, &openings)
    });
    64 * blocks + verdict as u64
}

/// 8: every opening leads to its root. They lie position by position and, within one, item by item, the new item
/// last, and are hashed in this order, each of them whole, up to the first that fails.
fn check_openings(
    roots: &[Digest],
    positions: &[usize],
    openings: &[Opening],
    blocks: &mut u64,
) -> Result<(), Refusal> {
    for (position, shown) in positions.iter().zip(openings.chunks(roots.len())) {
        for (opening, root) in shown.iter().zip(roots) {
            let entry = code::entry(*position, opening.value);
            let led = tree::leads_to(&entry, *position, &opening.path);
            *blocks += led.blocks;
            check(8, led.digest == *root)?;
        }
    }
    Ok(())
}

/// 9: at every position, the new opened value is the combination of the items' opened values.
fn check_values(l: usize, challenge: Element, openings: &[Opening]) -> Result<(), Refusal> {
    let at = claims::lagrange_at(l, challenge);
    for shown in openings.chunks(l + 1) {
        let values = shown[..l].iter().map(|opening| opening.value);
        check(9, claims::combine_at(&at, values) == shown[l].value)?;
    }
    Ok(())
}
