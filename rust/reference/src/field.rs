//! The field F_p for the prime p = 15 × 2^27 + 1.

use std::ops::{Add, Mul, Neg, Sub};

pub const P: u32 = 2013265921;

/// An element: a number below p.
#[derive(Clone, Copy, PartialEq, Eq, Debug)]
pub struct Element(u32);

pub const ZERO: Element = Element(0);
pub const ONE: Element = Element(1);

impl Element {
    /// The element with this number, if the number is below p.
    pub fn new(number: u32) -> Option<Element> {
        (number < P).then_some(Element(number))
    }

    /// The element that any whole number stands for: its remainder modulo p.
    pub fn reduce(number: u64) -> Element {
        Element((number % P as u64) as u32)
    }

    /// The number of the element.
    pub fn number(self) -> u32 {
        self.0
    }

    /// Square and multiply.
    pub fn pow(self, exponent: u64) -> Element {
        if exponent == 0 {
            return ONE;
        }
        let half = self.pow(exponent / 2);
        if exponent.is_multiple_of(2) {
            half * half
        } else {
            half * half * self
        }
    }

    /// The inverse of an element other than 0, by Fermat: a^(p-2) × a = a^(p-1) = 1.
    pub fn inverse(self) -> Element {
        assert!(self != ZERO, "0 has no inverse");
        self.pow(P as u64 - 2)
    }
}

impl Add for Element {
    type Output = Element;
    fn add(self, other: Element) -> Element {
        Element::reduce(self.0 as u64 + other.0 as u64)
    }
}

impl Neg for Element {
    type Output = Element;
    fn neg(self) -> Element {
        Element::reduce((P - self.0) as u64)
    }
}

impl Sub for Element {
    type Output = Element;
    fn sub(self, other: Element) -> Element {
        self + -other
    }
}

impl Mul for Element {
    type Output = Element;
    fn mul(self, other: Element) -> Element {
        Element::reduce(self.0 as u64 * other.0 as u64)
    }
}

impl std::iter::Sum for Element {
    fn sum<I: Iterator<Item = Element>>(elements: I) -> Element {
        elements.fold(ZERO, |sum, e| sum + e)
    }
}

impl std::iter::Product for Element {
    fn product<I: Iterator<Item = Element>>(elements: I) -> Element {
        elements.fold(ONE, |product, e| product * e)
    }
}
