//! Values of claims and folds of items, with k = 64. The reference goes through all entries for every row, and folds
//! polynomials: its quotient is divided out, where this one is interpolated from its values.

use super::checks::*;
use super::field::{add, mul, sub, P};
use super::points::Points;
use super::tree::root;
use lomvuze_calls::layout::ItemLayout;
use std::ops::Range;

// ---- Values

fn row_sums(list: &[u8], z: &[u32]) -> [u32; 64] {
    let mut sums = [0; 64];
    for entry in list.chunks_exact(12) {
        let row = get(entry, 0) as usize;
        sums[row] = add(sums[row], mul(get(entry, 2), z[get(entry, 1) as usize]));
    }
    sums
}

fn weight(r: &[u32], j: usize) -> u32 {
    r.iter()
        .enumerate()
        .fold(1, |product, (b, r)| mul(product, if j >> b & 1 == 1 { *r } else { sub(1, *r) }))
}

fn value(circuit: Circuit, r: &[u32], z: &[u32]) -> u32 {
    let [az, bz, cz] = circuit.map(|list| row_sums(list, z));
    (0..1 << r.len()).fold(0, |sum, j| add(sum, mul(weight(r, j), sub(mul(az[j], bz[j]), cz[j]))))
}

// ---- Folds

/// The inverses of the numbers below 64: p = (p / i) × i + p % i, so 1 / i = -(p / i) / (p % i).
const INVERSES: [u32; 64] = {
    let mut inverses = [0; 64];
    inverses[1] = 1;
    let mut i = 2;
    while i < 64 {
        inverses[i] = P - ((P / i as u32) as u64 * inverses[P as usize % i] as u64 % P as u64) as u32;
        i += 1;
    }
    inverses
};

/// L_0 to L_(l - 1) at a.
pub fn lagrange(a: u32, weights: &mut [u32]) {
    let l = weights.len();
    for (i, weight) in weights.iter_mut().enumerate() {
        *weight = 1;
        for j in 0..l {
            if j < i {
                *weight = mul(*weight, mul(sub(a, j as u32), INVERSES[i - j]));
            } else if j > i {
                *weight = mul(*weight, mul(sub(j as u32, a), INVERSES[j - i]));
            }
        }
    }
}

/// The sum of weight i times number i * stride + at.
fn weighted(weights: &[u32], buffer: &[u8], stride: usize, at: usize) -> u32 {
    weights
        .iter()
        .enumerate()
        .fold(0, |sum, (i, weight)| add(sum, mul(*weight, get(buffer, i * stride + at))))
}

fn combine(weights: &[u32], buffer: &[u8], stride: usize, at: usize, out: &mut [u32]) {
    for (j, number) in out.iter_mut().enumerate() {
        *number = weighted(weights, buffer, stride, at + j);
    }
}

/// The combination of a part of the items.
fn combine_items(weights: &[u32], layout: ItemLayout, items: &[u8], part: Range<usize>, out: &mut [u32]) {
    combine(weights, items, layout.bytes() / 4, part.start / 4, &mut out[..part.len() / 4]);
}

/// The coefficients of the polynomial with these values at first, first + 1, ..: Newton's rule, in place.
fn interpolate(first: u32, values: &mut [u32]) {
    let n = values.len();
    for i in 0..n {
        for j in i + 1..n {
            values[j] = mul(sub(values[j], values[i]), INVERSES[j - i]);
        }
    }
    for i in (0..n).rev() {
        for j in i..n - 1 {
            values[j] = sub(values[j], mul(first + i as u32, values[j + 1]));
        }
    }
}

/// The most numbers that e, r and x have.
const CLAIM: usize = ItemLayout { m: 6, n: 64 }.root().start / 4;

/// Writes the new e, r and x to the front of an item.
pub fn write_claim(
    layout: ItemLayout,
    a: u32,
    weights: &[u32],
    items: &[u8],
    quotient: &[u8],
    out: &mut [u8],
) {
    let (mut new, claim) = ([0; CLAIM], 0..layout.root().start);
    combine_items(weights, layout, items, claim.clone(), &mut new);
    let vanishing = (0..weights.len()).fold(1, |product, j| mul(product, sub(a, j as u32)));
    let quotient = numbers(quotient).rev().fold(0, |value, coefficient| add(coefficient, mul(a, value)));
    new[0] = add(new[0], mul(vanishing, quotient));
    store(&new, &mut out[claim]);
}

// ---- Lists

/// A circuit with items and their witnesses, in their buffers, and the points of the codewords.
pub struct List<'a> {
    layout: ItemLayout,
    pub points: Points,
    circuit: Circuit<'a>,
    items: &'a [u8],
    wits: &'a [u8],
}

impl<'a> List<'a> {
    /// Checks 2, 3, 12, 4 and 13. The sizes are m, n, k and the count of items.
    pub fn check(
        [m, n, k, l]: [u32; 4],
        points: &[u8],
        circuit: Circuit<'a>,
        items: &'a [u8],
        wits: &'a [u8],
    ) -> Result<List<'a>, u32> {
        let (layout, count) = (ItemLayout { m, n }, l as usize);
        check(2, sizes(m, n, k, l) && Points::fit(points) && circuit_fits(circuit))?;
        check(2, items.len() == count * layout.bytes() && wits.len() == count * 4 * K)?;
        check(3, circuit_below(circuit) && items_below(layout, items) && below(wits))?;
        let points = Points::check(points)?;
        check(4, circuit.iter().all(|list| in_order(1 << m, n + k, list)))?;
        check(13, leading_ones(layout, items))?;
        Ok(List { layout, points, circuit, items, wits })
    }

    fn pairs(&self) -> impl Iterator<Item = (&[u8], &[u8])> {
        self.items.chunks_exact(self.layout.bytes()).zip(self.wits.chunks_exact(4 * K))
    }

    /// Check 10.
    pub fn match_witnesses(&self) -> Result<(), u32> {
        let matches = |(item, w): (&[u8], &[u8])| item[self.layout.root()] == root(&self.points.codeword(w));
        check(10, self.pairs().all(matches))
    }

    /// Check 11.
    pub fn hold(&self) -> Result<(), u32> {
        let [m, n] = [self.layout.m as usize, self.layout.n as usize];
        let (mut r, mut z) = ([0; 6], [0; 128]);
        check(
            11,
            self.pairs().all(|(item, w)| {
                load(&item[self.layout.r()], &mut r);
                load(&item[self.layout.x()], &mut z);
                load(w, &mut z[n..]);
                value(self.circuit, &r[..m], &z[..n + K]) == get(item, 0)
            }),
        )
    }

    /// The quotient's value at l + i.
    fn quotient_value(&self, l: usize, i: usize) -> u32 {
        let List { layout, circuit, items, .. } = *self;
        let [m, n] = [layout.m as usize, layout.n as usize];
        let (mut weights, mut r, mut z, mut e) = ([0; 8], [0; 6], [0; 128], [0]);
        let weights = &mut weights[..l];
        lagrange((l + i) as u32, weights);
        combine_items(weights, layout, items, layout.e(), &mut e);
        combine_items(weights, layout, items, layout.r(), &mut r);
        combine_items(weights, layout, items, layout.x(), &mut z);
        self.combine_witnesses(weights, &mut z[n..n + K]);
        let rest = sub(value(circuit, &r[..m], &z[..n + K]), e[0]);
        (0..l).fold(rest, |rest, j| mul(rest, INVERSES[l + i - j]))
    }

    pub fn combine_witnesses(&self, weights: &[u32], out: &mut [u32]) {
        combine(weights, self.wits, K, 0, out);
    }

    pub fn write_quotient(&self, out: &mut [u8]) {
        let (mut numbers, l) = ([0; 49], self.wits.len() / (4 * K));
        let numbers = &mut numbers[..out.len() / 4];
        for (i, number) in numbers.iter_mut().enumerate() {
            *number = self.quotient_value(l, i);
        }
        interpolate(l as u32, numbers);
        store(numbers, out);
    }
}
