//! Evaluation points as the calls take them: none, for the built-in ones, or 4k numbers.

use crate::{number_at, Random};
use lomvuze_reference::field::Element;
use lomvuze_reference::{code, element_bytes};

/// The built-in points, to be lent by hand.
pub fn built_in(k: u32) -> Vec<u8> {
    element_bytes(&code::built_in_points(k as usize))
}

/// Random points, of which no two are equal.
pub fn different(random: &mut Random, k: u32) -> Vec<u8> {
    let mut points: Vec<Element> = vec![];
    while points.len() < 4 * k as usize {
        let point = random.element();
        if !points.contains(&point) {
            points.push(point);
        }
    }
    element_bytes(&points)
}

/// None, the built-in ones lent by hand, or random ones.
pub fn any(random: &mut Random, k: u32) -> Vec<u8> {
    match random.below(4) {
        0 => vec![],
        1 => built_in(k),
        _ => different(random, k),
    }
}

/// The points that a call uses which is lent these.
pub(crate) fn used(k: u32, lent: &[u8]) -> Vec<Element> {
    match lent {
        [] => code::built_in_points(k as usize),
        _ => lent.chunks(4).map(|point| Element::new(number_at(point, 0)).unwrap()).collect(),
    }
}
