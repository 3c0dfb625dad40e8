//! Damage to verifying that only the combination of values shows.

use crate::{number_at, Call, Random};
use lomvuze_reference::calls;
use lomvuze_reference::code;
use lomvuze_reference::element_bytes;
use lomvuze_reference::field::{Element, ONE, ZERO};
use lomvuze_reference::polynomial::Polynomial;

impl Call {
    /// Puts another witness behind the root of an item, at all its openings: the openings lead to the root,
    /// and at one position at least the values do not combine. Its codeword is at the built-in points: verifying sees
    /// values and knows no points.
    pub(super) fn show_another_witness(&mut self, random: &mut Random) {
        let [m, n, k, l, t] = ["m", "n", "k", "l", "t"].map(|name| self.number(name));
        if m > 6 || n > 64 || !(2..=64).contains(&k) || l > 8 || !(1..=256).contains(&t) {
            return;
        }
        let (layout, length) = (self.item_layout(), self.opening_layout().bytes());
        let item_length = layout.bytes();
        let [items, positions, _, new_item, openings] = &mut self.inputs[..] else { unreachable!() };
        if items.len() != l * item_length
            || positions.len() != 4 * t
            || new_item.len() != item_length
            || openings.len() != t * (l + 1) * length
        {
            return;
        }
        let i = random.below(l + 1);
        let opening = |q: usize| (q * (l + 1) + i) * length;
        let mut shown: Vec<(u32, u32)> =
            (0..t).map(|q| (number_at(positions, 4 * q), number_at(openings, opening(q)))).collect();
        shown.sort();
        shown.dedup_by_key(|(position, _)| *position);
        let first = random.below(shown.len());
        shown.rotate_left(first);
        shown.truncate(k);
        if shown.iter().any(|(position, _)| *position as usize >= 4 * k) {
            return;
        }
        let points = code::built_in_points(k);
        let w = another_witness(&points, k, &shown);

        let mut opened = vec![0; t * length];
        if calls::open(k as u32, t as u32, &[], &element_bytes(&w), positions, &mut opened) != 0 {
            return;
        }
        for q in 0..t {
            openings[opening(q)..][..length].copy_from_slice(&opened[q * length..][..length]);
        }
        let item = if i < l { &mut items[i * item_length..][..item_length] } else { &mut new_item[..] };
        item[layout.root()].copy_from_slice(&code::root(&points, &w));
    }
}

/// The witness whose codeword has at up to k positions the values shown there, but another one at the first:
/// by Lagrange's rule.
fn another_witness(all: &[Element], k: usize, shown: &[(u32, u32)]) -> Vec<Element> {
    let points: Vec<Element> = shown.iter().map(|(position, _)| all[*position as usize]).collect();
    let mut sum = Polynomial::from(ZERO);
    for (j, (_, value)) in shown.iter().enumerate() {
        let value = Element::reduce(*value as u64) + if j == 0 { ONE } else { ZERO };
        let mut term = Polynomial::from(value);
        for other in points.iter().filter(|other| **other != points[j]) {
            let scale = (points[j] - *other).inverse();
            term = term * Polynomial::root_at(*other) * Polynomial::from(scale);
        }
        sum = sum + term;
    }
    (0..k).map(|i| sum.coefficient(i)).collect()
}
