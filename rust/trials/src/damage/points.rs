//! Damage to points: repeats, numbers of p or more, other lengths and other points.

use crate::{number_at, points, put, Call, Part, Random};
use lomvuze_reference::field::P;

impl Call {
    /// A point that repeats another, or is p or more. Where none are lent, random ones are first.
    pub(super) fn fail_points(&mut self, random: &mut Random) {
        let k = self.number("k") as u32;
        let points = self.first(Part::Points);
        if points.is_empty() {
            *points = points::different(random, k);
        }
        let count = points.len() / 4;
        let last = count - 1;
        let one = random.below(count);
        let other = (one + 1 + random.below(last)) % count;
        let point = |i: usize| number_at(points, 4 * i);
        let any = P + random.below((u32::MAX - P) as usize) as u32;
        let (at, number) = match random.below(8) {
            0 => (last, point(0)),
            1 => (0, point(last)),
            2 => (one.max(1), point(one.max(1) - 1)),
            3 => (other, point(one)),
            4 => (last, [P, P + 1, u32::MAX, any][random.below(4)]),
            5 => (0, [P, P + 1, u32::MAX, any][random.below(4)]),
            6 => (one, [P, P + 1, u32::MAX, any][random.below(4)]),
            // The same element as another point, as a number of p or more.
            _ => (other, P + point(one)),
        };
        put(points, 4 * at, number);
    }

    /// Points of another length than none or 4k numbers: a byte or a number more or fewer, those of another k, or a few
    /// bytes.
    pub(super) fn fail_points_length(&mut self, random: &mut Random) {
        let k = self.number("k") as u32;
        let points = self.first(Part::Points);
        if points.is_empty() {
            *points = points::built_in(k);
        }
        let length = points.len();
        let other = [length - 1, length + 1, length - 4, length + 4, length / 2, 2 * length, 1, 4];
        points.resize(other[random.below(other.len())], 0);
    }

    /// Lends other points, or none, where k is permitted.
    pub(super) fn lend_others(&mut self, random: &mut Random) {
        let k = self.number("k") as u32;
        if [2, 4, 8, 16, 32, 64].contains(&k) {
            *self.first(Part::Points) = points::any(random, k);
        }
    }
}
