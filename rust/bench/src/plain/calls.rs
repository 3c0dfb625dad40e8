//! Calls with k = 64, over the modules beside this one: the reference's are not the ones to compare with, as what they are
//! over is not. A call that is not written here is the reference's. Each message is hashed by itself, also where the proved
//! library hashes four side by side.

#![allow(clippy::too_many_arguments)]

use super::checks::*;
use super::claims::*;
use super::points::Points;
use super::tree::{openings, root};
use lomvuze_calls::layout::{ItemLayout, DIGEST_BYTES};
use lomvuze_reference::claims::quotient_count;

pub use super::draws::{draw_challenge, draw_positions, draw_r};
pub use super::sheet::read_sheet;
pub use lomvuze_reference::calls::*;

/// The bytes of the quotient of l items.
pub fn quotient_bytes(m: u32, l: u32) -> usize {
    4 * quotient_count(m as usize, l as usize)
}

pub fn encode(k: u32, points: &[u8], w: &[u8], code_out: &mut [u8], root_out: &mut [u8]) -> u32 {
    verdict(|| {
        check(2, k as usize == K && Points::fit(points))?;
        check(2, [w.len(), code_out.len(), root_out.len()] == [4 * K, 16 * K, DIGEST_BYTES])?;
        check(3, below(w))?;
        let values = Points::check(points)?.codeword(w);
        store(&values, code_out);
        root_out.copy_from_slice(&root(&values));
        Ok(())
    })
}

pub fn cast(
    m: u32,
    n: u32,
    k: u32,
    points: &[u8],
    a: &[u8],
    b: &[u8],
    c: &[u8],
    r: &[u8],
    x: &[u8],
    w: &[u8],
    item_out: &mut [u8],
) -> u32 {
    verdict(|| {
        let layout = ItemLayout { m, n };
        check(2, claim_sizes(m, n))?;
        let lengths = [layout.r().len(), layout.x().len(), layout.bytes()];
        check(2, [r.len(), x.len(), item_out.len()] == lengths)?;
        let mut item = vec![0; layout.bytes()];
        item[layout.r()].copy_from_slice(r);
        item[layout.x()].copy_from_slice(x);
        let list = List::check([m, n, k, 1], points, [a, b, c], &item, w)?;
        list.hold()?;
        let root = root(&list.points.codeword(w));
        item[layout.root()].copy_from_slice(&root);
        item_out.copy_from_slice(&item);
        Ok(())
    })
}

pub fn quotient(
    m: u32,
    n: u32,
    k: u32,
    l: u32,
    points: &[u8],
    a: &[u8],
    b: &[u8],
    c: &[u8],
    items: &[u8],
    wits: &[u8],
    quotient_out: &mut [u8],
) -> u32 {
    verdict(|| {
        check(2, sizes(m, n, k, l) && quotient_out.len() == quotient_bytes(m, l))?;
        let list = List::check([m, n, k, l], points, [a, b, c], items, wits)?;
        list.match_witnesses()?;
        list.hold()?;
        list.write_quotient(quotient_out);
        Ok(())
    })
}

pub fn fold(
    m: u32,
    n: u32,
    k: u32,
    l: u32,
    challenge: u32,
    points: &[u8],
    a: &[u8],
    b: &[u8],
    c: &[u8],
    items: &[u8],
    wits: &[u8],
    quotient_out: &mut [u8],
    item_out: &mut [u8],
    wit_out: &mut [u8],
) -> u32 {
    verdict(|| {
        let layout = ItemLayout { m, n };
        check(2, sizes(m, n, k, l) && quotient_out.len() == quotient_bytes(m, l))?;
        check(2, [item_out.len(), wit_out.len()] == [layout.bytes(), 4 * K])?;
        let list = List::check([m, n, k, l], points, [a, b, c], items, wits)?;
        check(5, challenge_fits(l, challenge))?;
        list.match_witnesses()?;
        list.hold()?;
        list.write_quotient(quotient_out);
        let (mut weights, mut w) = ([0; 8], [0; K]);
        let weights = &mut weights[..l as usize];
        lagrange(challenge, weights);
        list.combine_witnesses(weights, &mut w);
        store(&w, wit_out);
        write_claim(layout, challenge, weights, items, quotient_out, item_out);
        item_out[layout.root()].copy_from_slice(&root(&list.points.codeword(wit_out)));
        Ok(())
    })
}

pub fn open(k: u32, t: u32, points: &[u8], w: &[u8], positions: &[u8], openings_out: &mut [u8]) -> u32 {
    verdict(|| {
        let count = t as usize;
        check(2, position_sizes(k, t) && Points::fit(points))?;
        let lengths = [4 * K, 4 * count, count * OPENING.bytes()];
        check(2, [w.len(), positions.len(), openings_out.len()] == lengths)?;
        check(3, below(w))?;
        let points = Points::check(points)?;
        check(6, positions_below(positions))?;
        openings(&points.codeword(w), numbers(positions).map(|position| position as usize), openings_out);
        Ok(())
    })
}

pub fn decide(
    m: u32,
    n: u32,
    k: u32,
    points: &[u8],
    a: &[u8],
    b: &[u8],
    c: &[u8],
    item: &[u8],
    wit: &[u8],
) -> u32 {
    verdict(|| {
        let list = List::check([m, n, k, 1], points, [a, b, c], item, wit)?;
        list.match_witnesses()?;
        list.hold()
    })
}
