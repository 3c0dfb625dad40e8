//! Codewords and openings of witnesses.

use crate::checks::*;
use crate::code;

/// Writes the codeword of a witness and its root. Checks 2, 3 and 12.
pub fn encode(k: u32, points: &[u8], w: &[u8], code_out: &mut [u8], root_out: &mut [u8]) -> u32 {
    verdict(|| {
        let k = size_k(k)?;
        points_length(points, k)?;
        length(w, 4 * k)?;
        length(code_out, 16 * k)?;
        length(root_out, 32)?;

        let w = elements(w)?;
        let points = check_points(points, k)?;

        code_out.copy_from_slice(&element_bytes(&code::codeword(&points, &w)));
        root_out.copy_from_slice(&code::root(&points, &w));
        Ok(())
    })
}

/// Writes the openings of t positions of a witness's codeword. Checks 2, 3, 12 and 6.
pub fn open(k: u32, t: u32, points: &[u8], w: &[u8], positions: &[u8], openings_out: &mut [u8]) -> u32 {
    verdict(|| {
        let k = size_k(k)?;
        let t = size_t(t, k)?;
        points_length(points, k)?;
        length(w, 4 * k)?;
        length(positions, 4 * t)?;
        length(openings_out, t * opening_length(k))?;

        let w = elements(w)?;
        let points = check_points(points, k)?;
        let positions = check_positions(positions, k)?;

        let codeword = code::codeword(&points, &w);
        let openings = positions.iter().flat_map(|position| opening_bytes(&codeword, *position));
        openings_out.copy_from_slice(&openings.collect::<Vec<u8>>());
        Ok(())
    })
}

/// Writes the openings of l items and the new one, which stand one witness after the other, the new one last, in
/// the order in which verifying takes them: position by position and, within one, item by item. Check 2.
pub fn interleave(k: u32, l: u32, t: u32, opened: &[u8], openings_out: &mut [u8]) -> u32 {
    verdict(|| {
        let (k, l) = (size_k(k)?, size_l(l)?);
        let t = size_t(t, k)?;
        length(opened, (l + 1) * t * opening_length(k))?;
        length(openings_out, t * (l + 1) * opening_length(k))?;

        let length = opening_length(k);
        for (position, shown) in openings_out.chunks_mut((l + 1) * length).enumerate() {
            for (item, opening) in shown.chunks_mut(length).enumerate() {
                opening.copy_from_slice(&opened[(item * t + position) * length..][..length]);
            }
        }
        Ok(())
    })
}
