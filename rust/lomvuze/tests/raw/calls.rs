//! The crate's calls with the arguments of the library's own, so that both can run the same call.
//!
//! What cannot be said to the crate's calls is answered here, as check 2 does: an input that is no whole
//! numbers, entries, items, witnesses, openings or digests; l or t that is not the count of items or positions; and
//! the length of an output buffer. Verifying answers verdict and blocks in one number, as the library does.

#![allow(clippy::too_many_arguments)]

use crate::layout::*;
pub use crate::sheet::read_sheet;
use lomvuze::{Opening, Positions, Seed, Sizes, Verified};
use lomvuze_trials::bytes;

pub fn encode(k: u32, points: &[u8], w: &[u8], code_out: &mut [u8], root_out: &mut [u8]) -> u32 {
    answer(|| {
        let sizes = Sizes { m: 0, n: 1, k };
        check_2(code_out.len() == sizes.codeword_bytes() && root_out.len() == 32)?;
        let encoded = lomvuze::encode(sizes, &numbers(points)?, &numbers(w)?)?;
        code_out.copy_from_slice(&bytes(&encoded.code));
        root_out.copy_from_slice(&encoded.root);
        Ok(())
    })
}

pub fn cast(
    m: u32,
    n: u32,
    k: u32,
    points: &[u8],
    a: &[u8],
    b: &[u8],
    c: &[u8],
    r: &[u8],
    x: &[u8],
    w: &[u8],
    item_out: &mut [u8],
) -> u32 {
    answer(|| {
        let sizes = Sizes { m, n, k };
        check_2(item_out.len() == sizes.item_bytes())?;
        let (points, circuit) = (numbers(points)?, circuit(a, b, c)?);
        let item = lomvuze::cast(sizes, &points, &circuit, &numbers(r)?, &numbers(x)?, &numbers(w)?)?;
        item_out.copy_from_slice(&item_bytes(&item));
        Ok(())
    })
}

pub fn quotient(
    m: u32,
    n: u32,
    k: u32,
    l: u32,
    points: &[u8],
    a: &[u8],
    b: &[u8],
    c: &[u8],
    items_in: &[u8],
    wits: &[u8],
    quotient_out: &mut [u8],
) -> u32 {
    answer(|| {
        let sizes = Sizes { m, n, k };
        let items = items(sizes, l, items_in)?;
        check_2(quotient_out.len() == sizes.quotient_bytes(items.len()))?;
        let (points, circuit) = (numbers(points)?, circuit(a, b, c)?);
        let quotient = lomvuze::quotient(sizes, &points, &circuit, &items, &witnesses(k, wits)?)?;
        quotient_out.copy_from_slice(&bytes(&quotient));
        Ok(())
    })
}

pub fn fold(
    m: u32,
    n: u32,
    k: u32,
    l: u32,
    challenge: u32,
    points: &[u8],
    a: &[u8],
    b: &[u8],
    c: &[u8],
    items_in: &[u8],
    wits: &[u8],
    quotient_out: &mut [u8],
    item_out: &mut [u8],
    wit_out: &mut [u8],
) -> u32 {
    answer(|| {
        let sizes = Sizes { m, n, k };
        let items = items(sizes, l, items_in)?;
        check_2(quotient_out.len() == sizes.quotient_bytes(items.len()))?;
        check_2(item_out.len() == sizes.item_bytes() && wit_out.len() == sizes.witness_bytes())?;
        let (points, circuit, witnesses) = (numbers(points)?, circuit(a, b, c)?, witnesses(k, wits)?);
        let folded = lomvuze::fold(sizes, challenge.into(), &points, &circuit, &items, &witnesses)?;
        quotient_out.copy_from_slice(&bytes(&folded.quotient));
        item_out.copy_from_slice(&item_bytes(&folded.item));
        wit_out.copy_from_slice(&bytes(&folded.witness));
        Ok(())
    })
}

pub fn open(k: u32, t: u32, points: &[u8], w: &[u8], positions: &[u8], openings_out: &mut [u8]) -> u32 {
    answer(|| {
        let sizes = Sizes { m: 0, n: 1, k };
        let positions: Positions = numbers(positions)?;
        check_2(positions.len() == t as usize)?;
        check_2(openings_out.len() == sizes.openings_bytes(positions.len()))?;
        let openings = lomvuze::open(sizes, &numbers(points)?, &numbers(w)?, &positions)?;
        openings_out.copy_from_slice(&openings_bytes(k, &openings));
        Ok(())
    })
}

pub fn interleave(k: u32, l: u32, t: u32, opened: &[u8], openings_out: &mut [u8]) -> u32 {
    answer(|| {
        let sizes = Sizes { m: 0, n: 1, k };
        let openings = openings(sizes, opened)?;
        check_2(t > 0 && openings.len() as u64 == (l as u64 + 1) * t as u64)?;
        check_2(openings_out.len() == opened.len())?;
        let of_each: Vec<&[Opening]> = openings.chunks(t as usize).collect();
        openings_out.copy_from_slice(&openings_bytes(k, &lomvuze::interleave(sizes, &of_each)?));
        Ok(())
    })
}

pub fn verify(
    m: u32,
    n: u32,
    k: u32,
    l: u32,
    t: u32,
    challenge: u32,
    items_in: &[u8],
    positions: &[u8],
    quotient: &[u8],
    new_item: &[u8],
    openings_in: &[u8],
) -> u64 {
    let mut hashed = 0;
    let verdict = answer(|| {
        let sizes = Sizes { m, n, k };
        let (items, positions): (_, Positions) = (items(sizes, l, items_in)?, numbers(positions)?);
        check_2(positions.len() == t as usize)?;
        let (quotient, new_item) = (numbers(quotient)?, item(sizes, new_item)?);
        let openings = by_item(l, openings(sizes, openings_in)?);
        let Verified { verdict, blocks } =
            lomvuze::verify(sizes, challenge.into(), &items, &positions, &quotient, &new_item, &openings);
        hashed = blocks;
        verdict
    });
    64 * hashed + verdict as u64
}

pub fn decide(
    m: u32,
    n: u32,
    k: u32,
    points: &[u8],
    a: &[u8],
    b: &[u8],
    c: &[u8],
    item_in: &[u8],
    wit: &[u8],
) -> u32 {
    answer(|| {
        let sizes = Sizes { m, n, k };
        let (points, circuit) = (numbers(points)?, circuit(a, b, c)?);
        lomvuze::decide(sizes, &points, &circuit, &item(sizes, item_in)?, &numbers(wit)?)
    })
}

pub fn draw_challenge(
    m: u32,
    n: u32,
    k: u32,
    l: u32,
    items_in: &[u8],
    quotient: &[u8],
    seed_out: &mut [u8],
    challenge_out: &mut [u8],
) -> u32 {
    answer(|| {
        let sizes = Sizes { m, n, k };
        check_2(seed_out.len() == 32 && challenge_out.len() == 4)?;
        let drawn = lomvuze::draw_challenge(sizes, &items(sizes, l, items_in)?, &numbers(quotient)?)?;
        seed_out.copy_from_slice(drawn.seed.as_bytes());
        challenge_out.copy_from_slice(&bytes(&[drawn.challenge.into()]));
        Ok(())
    })
}

pub fn draw_positions(
    k: u32,
    l: u32,
    t: u32,
    challenge: u32,
    seed: &[u8],
    root: &[u8],
    positions_out: &mut [u8],
) -> u32 {
    answer(|| {
        let (seed, root, t) = (Seed::from(digest(seed)?), digest(root)?, t as usize);
        check_2(positions_out.len() == 4 * t)?;
        let positions =
            lomvuze::draw_positions(Sizes { m: 0, n: 1, k }, l as usize, t, challenge.into(), &seed, &root)?;
        positions_out.copy_from_slice(&bytes(&positions));
        Ok(())
    })
}

/// The crate does not look at k.
pub fn draw_r(m: u32, n: u32, root: &[u8], x: &[u8], r_out: &mut [u8]) -> u32 {
    answer(|| {
        check_2(r_out.len() == 4 * m as usize)?;
        let r = lomvuze::draw_r(Sizes { m, n, k: 0 }, &digest(root)?, &numbers(x)?)?;
        r_out.copy_from_slice(&bytes(&r));
        Ok(())
    })
}
