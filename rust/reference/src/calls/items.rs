//! One item: cast and decided.

#![allow(clippy::too_many_arguments)]

use crate::checks::*;
use crate::claims::{self, Item};
use crate::code;
use crate::field::ZERO;

/// Writes the item of an R1CS instance: r as lent, e = 0 and the root of the witness. Checks 2, 3, 12, 4, 13
/// and 11.
pub fn cast(
    m: u32,
    n: u32,
    k: u32,
    points: &[u8],
    a: &[u8],
    b: &[u8],
    c: &[u8],
    r: &[u8],
    x: &[u8],
    w: &[u8],
    item_out: &mut [u8],
) -> u32 {
    verdict(|| {
        let (m, n, k) = (size_m(m)?, size_n(n)?, size_k(k)?);
        points_length(points, k)?;
        entry_counts([a, b, c])?;
        length(r, 4 * m)?;
        length(x, 4 * n)?;
        length(w, 4 * k)?;
        length(item_out, item_length(m, n))?;

        let circuit = circuit(a, b, c)?;
        let (r, x, w) = (elements(r)?, elements(x)?, elements(w)?);

        let points = check_points(points, k)?;
        check_circuit(&circuit, m, n, k)?;
        check_first_input(&x)?;

        let item = Item { e: ZERO, r, x, root: code::root(&points, &w) };
        check(11, claims::holds(&circuit, &item, &w))?;

        item_out.copy_from_slice(&item_bytes(&item));
        Ok(())
    })
}

/// Decides an item with its witness. Checks 2, 3, 12, 4, 13, 10 and 11.
pub fn decide(
    m: u32,
    n: u32,
    k: u32,
    points: &[u8],
    a: &[u8],
    b: &[u8],
    c: &[u8],
    item_in: &[u8],
    witness: &[u8],
) -> u32 {
    verdict(|| {
        let (m, n, k) = (size_m(m)?, size_n(n)?, size_k(k)?);
        points_length(points, k)?;
        entry_counts([a, b, c])?;
        length(item_in, item_length(m, n))?;
        length(witness, 4 * k)?;

        let circuit = circuit(a, b, c)?;
        let item = item(item_in, m, n)?;
        let w = elements(witness)?;

        let points = check_points(points, k)?;
        check_circuit(&circuit, m, n, k)?;
        check_first_input(&item.x)?;
        check(10, claims::matches(&points, &item, &w))?;
        check(11, claims::holds(&circuit, &item, &w))
    })
}
