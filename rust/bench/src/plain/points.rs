//! Points with k = 64: which of them a call uses, check 12, and codewords at them. The reference works the built-in points
//! out at every call, and its check 12 compares points one at a time, as it ends at the first that are equal.

use super::checks::{check, load, K};
use super::code::{codeword, codeword_at};
use super::field::P;

/// The points that a call uses: those that it is lent, or none for the built-in ones.
pub struct Points(Option<[u32; 4 * K]>);

impl Points {
    /// Check 2: none are lent, or 4k.
    pub fn fit(lent: &[u8]) -> bool {
        lent.is_empty() || lent.len() == 16 * K
    }

    /// Check 12, for points that fit.
    pub fn check(lent: &[u8]) -> Result<Points, u32> {
        if lent.is_empty() {
            return Ok(Points(None));
        }
        let mut points = [0; 4 * K];
        load(lent, &mut points);
        check(12, differ(&points))?;
        Ok(Points(Some(points)))
    }

    /// The codeword of a witness.
    pub fn codeword(&self, w: &[u8]) -> [u32; 4 * K] {
        let (mut numbers, mut out) = ([0; K], [0; 4 * K]);
        load(w, &mut numbers);
        match &self.0 {
            None => codeword(&numbers, &mut out),
            Some(points) => codeword_at(&numbers, points, &mut out),
        }
        out
    }
}

/// Whether all points are below p and no two are equal.
#[inline(never)]
pub fn differ(points: &[u32]) -> bool {
    points.iter().all(|point| *point < P)
        && points.iter().enumerate().all(|(i, point)| !is_among(*point, &points[i + 1..]))
}

/// Without an early exit, so that several are compared at a time.
fn is_among(point: u32, rest: &[u32]) -> bool {
    let mut found = false;
    for other in rest {
        found |= *other == point;
    }
    found
}
