//! Challenges, positions and r, drawn by hash.

#![allow(clippy::too_many_arguments)]

use crate::checks::*;
use crate::draws;
use crate::field::Element;

/// Writes the seed of l items and their quotient, and the challenge that is drawn from it. Checks 2, 3 and 13.
pub fn draw_challenge(
    m: u32,
    n: u32,
    k: u32,
    l: u32,
    items_in: &[u8],
    quotient: &[u8],
    seed_out: &mut [u8],
    challenge_out: &mut [u8],
) -> u32 {
    verdict(|| {
        let (m, n, k, l) = (size_m(m)?, size_n(n)?, size_k(k)?, size_l(l)?);
        length(items_in, l * item_length(m, n))?;
        length(quotient, quotient_length(m, l))?;
        length(seed_out, 32)?;
        length(challenge_out, 4)?;

        let items = items(items_in, m, n)?;
        let quotient = elements(quotient)?;
        check_first_inputs(&items)?;

        let seed = draws::seed((m, n, k), &items, &quotient);
        seed_out.copy_from_slice(&seed);
        challenge_out.copy_from_slice(&element_bytes(&[draws::challenge(l, &seed)]));
        Ok(())
    })
}

/// Writes t positions, drawn from seed, challenge and the root of the new item. Checks 2 and 5.
pub fn draw_positions(
    k: u32,
    l: u32,
    t: u32,
    challenge: u32,
    seed: &[u8],
    root: &[u8],
    positions_out: &mut [u8],
) -> u32 {
    verdict(|| {
        let (k, l) = (size_k(k)?, size_l(l)?);
        let t = size_t(t, k)?;
        let (seed, root) = (digest(seed)?, digest(root)?);
        length(positions_out, 4 * t)?;

        let challenge = check_challenge(challenge, l)?;

        let positions = (0..t).map(|j| draws::position(k, &seed, challenge, &root, j));
        positions_out.copy_from_slice(&positions.flat_map(u32::to_le_bytes).collect::<Vec<u8>>());
        Ok(())
    })
}

/// Writes the r of an item, drawn from its root and its x. Checks 2, 3 and 13.
pub fn draw_r(m: u32, n: u32, root: &[u8], x: &[u8], r_out: &mut [u8]) -> u32 {
    verdict(|| {
        let (m, n) = (size_m(m)?, size_n(n)?);
        let root = digest(root)?;
        length(x, 4 * n)?;
        length(r_out, 4 * m)?;

        let x = elements(x)?;
        check_first_input(&x)?;

        let r: Vec<Element> = (0..m).map(|j| draws::r(&root, &x, j)).collect();
        r_out.copy_from_slice(&element_bytes(&r));
        Ok(())
    })
}
