//! Codewords, by the halving transform and by sums. The reference works out sums alone, with a power for every number at
//! every point.

use super::field::{add, mul, sub, P};

/// The points for 64 witness numbers. Those for k are every (64 / k)-th.
pub static POINTS: [u32; 256] = {
    let mut points = [1; 256];
    let mut i = 1;
    while i < 256 {
        points[i] = (points[i - 1] as u64 * 1732600167 % P as u64) as u32;
        i += 1;
    }
    points
};

/// The places for 64 witness numbers: the bits of 0, 1, .., 63 in reverse. Those for k are the first k,
/// divided by 64 / k.
static PLACES: [usize; 64] = {
    let mut places = [0; 64];
    let mut b = 0;
    while b < 64 {
        places[b] = b.reverse_bits() >> (usize::BITS - 6);
        b += 1;
    }
    places
};

/// Joins the values of the even part, which are the first half, with those of the odd part to the values of the
/// whole. The points are every step-th of the table, and then their opposites.
fn join(step: usize, values: &mut [u32]) {
    let (evens, odds) = values.split_at_mut(values.len() / 2);
    for ((even, odd), points) in evens.iter_mut().zip(odds).zip(POINTS.chunks_exact(step)) {
        let product = mul(points[0], *odd);
        (*even, *odd) = (add(*even, product), sub(*even, product));
    }
}

/// Writes the codewords of the single numbers of w, in the order of their places. Each has four equal values.
fn spread(w: &[u32], out: &mut [u32]) {
    let shift = 6 - w.len().ilog2();
    for (part, place) in out.chunks_exact_mut(4).zip(&PLACES) {
        part.fill(w[place >> shift]);
    }
}

/// Writes the codeword of 2, 4, .., 64 numbers, by the halving transform. At first each number is a part by
/// itself. Each level joins the parts by pairs, until one is left.
#[inline(never)]
pub fn codeword(w: &[u32], out: &mut [u32]) {
    spread(w, out);
    let (mut values, mut step) = (4, 64);
    while values < out.len() {
        values *= 2;
        step /= 2;
        for part in out.chunks_exact_mut(values) {
            join(step, part);
        }
    }
}

/// Writes the value of w at each of the points, by direct sums.
#[inline(never)]
pub fn codeword_at(w: &[u32], points: &[u32], out: &mut [u32]) {
    for (value, x) in out.iter_mut().zip(points) {
        *value = w.iter().rev().fold(0, |sum, coefficient| add(*coefficient, mul(*x, sum)));
    }
}
