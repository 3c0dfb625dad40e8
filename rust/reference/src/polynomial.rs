//! Polynomials over the field, as lists of coefficients, lowest first. Zeros at the end mean nothing.

use crate::field::{Element, ONE, ZERO};
use std::ops::{Add, Mul, Sub};

#[derive(Clone, Debug)]
pub struct Polynomial(pub Vec<Element>);

impl Polynomial {
    /// X - a.
    pub fn root_at(a: Element) -> Polynomial {
        Polynomial(vec![-a, ONE])
    }

    /// Coefficient i, which is 0 beyond the list.
    pub fn coefficient(&self, i: usize) -> Element {
        self.0.get(i).copied().unwrap_or(ZERO)
    }

    /// The value at a.
    pub fn at(&self, a: Element) -> Element {
        (0..self.0.len()).map(|i| self.0[i] * a.pow(i as u64)).sum()
    }

    /// Quotient and remainder of the division by a polynomial whose last coefficient is 1.
    pub fn divide(&self, divisor: &Polynomial) -> (Polynomial, Polynomial) {
        let degree = divisor.0.len() - 1;
        assert!(divisor.0[degree] == ONE);
        let mut rest = self.0.clone();
        let mut quotient = vec![ZERO; rest.len().saturating_sub(degree)];
        for i in (0..quotient.len()).rev() {
            let factor = rest[i + degree];
            quotient[i] = factor;
            for j in 0..=degree {
                rest[i + j] = rest[i + j] - factor * divisor.0[j];
            }
        }
        (Polynomial(quotient), Polynomial(rest))
    }

    pub fn is_zero(&self) -> bool {
        self.0.iter().all(|c| *c == ZERO)
    }
}

impl From<Element> for Polynomial {
    fn from(constant: Element) -> Polynomial {
        Polynomial(vec![constant])
    }
}

impl Add for Polynomial {
    type Output = Polynomial;
    fn add(self, other: Polynomial) -> Polynomial {
        let length = self.0.len().max(other.0.len());
        Polynomial((0..length).map(|i| self.coefficient(i) + other.coefficient(i)).collect())
    }
}

impl Sub for Polynomial {
    type Output = Polynomial;
    fn sub(self, other: Polynomial) -> Polynomial {
        self + other * Polynomial::from(-ONE)
    }
}

impl Mul for Polynomial {
    type Output = Polynomial;
    fn mul(self, other: Polynomial) -> Polynomial {
        let mut product = vec![ZERO; (self.0.len() + other.0.len()).saturating_sub(1)];
        for i in 0..self.0.len() {
            for j in 0..other.0.len() {
                product[i + j] = product[i + j] + self.0[i] * other.0[j];
            }
        }
        Polynomial(product)
    }
}
