//! Challenges, positions and r, drawn by hash, with k = 64 where a call takes k. What all positions, or all numbers of r,
//! have in common is hashed once; the reference hashes it for each of them, and reads items into lists for their checks.

#![allow(clippy::too_many_arguments)]

use super::calls::quotient_bytes;
use super::checks::*;
use super::field::P;
use super::running::Running;
use lomvuze_calls::layout::{ItemLayout, DIGEST_BYTES};
use lomvuze_reference::draws::{challenge, first_4_bytes, first_8_bytes};

pub fn draw_challenge(
    m: u32,
    n: u32,
    k: u32,
    l: u32,
    items: &[u8],
    quotient: &[u8],
    seed_out: &mut [u8],
    challenge_out: &mut [u8],
) -> u32 {
    verdict(|| {
        let layout = ItemLayout { m, n };
        check(2, sizes(m, n, k, l))?;
        let lengths = [items.len(), quotient.len(), seed_out.len(), challenge_out.len()];
        check(2, lengths == [l as usize * layout.bytes(), quotient_bytes(m, l), DIGEST_BYTES, 4])?;
        check(3, items_below(layout, items) && below(quotient))?;
        check(13, leading_ones(layout, items))?;
        let sizes = [m, n, k, l].into_iter().fold(Running::new().feed(&[2]), Running::feed_number);
        let seed = sizes.feed(items).feed(quotient).digest();
        seed_out.copy_from_slice(&seed);
        challenge_out.copy_from_slice(&challenge(l as usize, &seed).number().to_le_bytes());
        Ok(())
    })
}

pub fn draw_positions(
    k: u32,
    l: u32,
    t: u32,
    challenge: u32,
    seed: &[u8],
    root: &[u8],
    positions_out: &mut [u8],
) -> u32 {
    verdict(|| {
        check(2, position_sizes(k, t) && (1..=8).contains(&l))?;
        check(
            2,
            [seed.len(), root.len(), positions_out.len()] == [DIGEST_BYTES, DIGEST_BYTES, 4 * t as usize],
        )?;
        check(5, challenge_fits(l, challenge))?;
        let common = Running::new().feed(&[4]).feed(seed).feed_number(challenge).feed(root);
        for (j, position) in (0..).zip(positions_out.chunks_exact_mut(4)) {
            let drawn = first_4_bytes(&common.feed_number(j).digest()) % (4 * k);
            position.copy_from_slice(&drawn.to_le_bytes());
        }
        Ok(())
    })
}

pub fn draw_r(m: u32, n: u32, root: &[u8], x: &[u8], r_out: &mut [u8]) -> u32 {
    verdict(|| {
        let layout = ItemLayout { m, n };
        check(2, claim_sizes(m, n))?;
        check(2, [root.len(), x.len(), r_out.len()] == [DIGEST_BYTES, layout.x().len(), layout.r().len()])?;
        check(3, below(x))?;
        check(13, get(x, 0) == 1)?;
        let common = Running::new().feed(&[5]).feed(root).feed(x);
        for (j, number) in (0..).zip(r_out.chunks_exact_mut(4)) {
            let drawn = first_8_bytes(&common.feed_number(j).digest()) % P as u64;
            number.copy_from_slice(&(drawn as u32).to_le_bytes());
        }
        Ok(())
    })
}
