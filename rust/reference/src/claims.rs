//! Circuits, items and folds: the scope paper's section "Claims and folds".

use crate::code;
use crate::field::{Element, ONE, ZERO};
use crate::polynomial::Polynomial;
use crate::sha256::Digest;
use std::ops::{Add, Mul, Sub};

/// What a value is computed from: field elements, or polynomials over them.
pub trait Ring: Clone + From<Element> + Add<Output = Self> + Sub<Output = Self> + Mul<Output = Self> {}
impl Ring for Element {}
impl Ring for Polynomial {}

/// An entry of a circuit's list.
#[derive(Clone, Copy, Debug)]
pub struct Entry {
    pub row: u32,
    pub column: u32,
    pub value: Element,
}

/// A circuit: a row holds when (Az) × (Bz) = Cz there.
#[derive(Clone, Debug)]
pub struct Circuit {
    pub a: Vec<Entry>,
    pub b: Vec<Entry>,
    pub c: Vec<Entry>,
}

impl Circuit {
    /// Whether every entry lies within rows and columns, and each list ascends strictly by row and then
    /// column.
    pub fn is_in_order(&self, rows: usize, columns: usize) -> bool {
        [&self.a, &self.b, &self.c].iter().all(|list| {
            list.iter().all(|entry| (entry.row as usize) < rows && (entry.column as usize) < columns)
                && list.windows(2).all(|pair| (pair[0].row, pair[0].column) < (pair[1].row, pair[1].column))
        })
    }
}

/// An item: a claimed value e, a point r of m elements, n public inputs x, of which the calls ask that the first is 1,
/// and a root.
#[derive(Clone, PartialEq, Debug)]
pub struct Item {
    pub e: Element,
    pub r: Vec<Element>,
    pub x: Vec<Element>,
    pub root: Digest,
}

/// Row j of a list of entries times z.
fn row<R: Ring>(list: &[Entry], j: usize, z: &[R]) -> R {
    let mut sum = R::from(ZERO);
    for entry in list.iter().filter(|entry| entry.row as usize == j) {
        sum = sum + R::from(entry.value) * z[entry.column as usize].clone();
    }
    sum
}

/// The weight of row j: over the bits b of j, the product of r_b where the bit is 1 and 1 - r_b where it is
/// 0.
pub fn weight<R: Ring>(r: &[R], j: usize) -> R {
    let mut product = R::from(ONE);
    for (b, r_b) in r.iter().enumerate() {
        let factor = if j >> b & 1 == 1 { r_b.clone() } else { R::from(ONE) - r_b.clone() };
        product = product * factor;
    }
    product
}

/// The value: the sum over the 2^m rows of weight × ((Az)(Bz) - Cz), with z = x followed by w.
pub fn value<R: Ring>(circuit: &Circuit, r: &[R], x: &[R], w: &[R]) -> R {
    let z = [x, w].concat();
    let mut sum = R::from(ZERO);
    for j in 0..1 << r.len() {
        let residue = row(&circuit.a, j, &z) * row(&circuit.b, j, &z) - row(&circuit.c, j, &z);
        sum = sum + weight(r, j) * residue;
    }
    sum
}

/// Whether an item holds with a witness.
pub fn holds(circuit: &Circuit, item: &Item, w: &[Element]) -> bool {
    value(circuit, &item.r, &item.x, w) == item.e
}

/// Whether an item matches a witness: its root is that of the codeword at these points.
pub fn matches(points: &[Element], item: &Item, w: &[Element]) -> bool {
    code::root(points, w) == item.root
}

/// Node i of a fold.
fn node(i: usize) -> Element {
    Element::reduce(i as u64)
}

/// L_i: the polynomial of degree below l that is 1 at node i and 0 at the other nodes.
pub fn lagrange(l: usize, i: usize) -> Polynomial {
    let mut product = Polynomial::from(ONE);
    for j in (0..l).filter(|j| *j != i) {
        let scale = (node(i) - node(j)).inverse();
        product = product * Polynomial::root_at(node(j)) * Polynomial::from(scale);
    }
    product
}

/// Z: the product of (X - node).
pub fn vanishing(l: usize) -> Polynomial {
    (0..l).fold(Polynomial::from(ONE), |product, i| product * Polynomial::root_at(node(i)))
}

/// The sum of L_i × (number i).
fn combine(numbers: &[Element]) -> Polynomial {
    let l = numbers.len();
    (0..l).fold(Polynomial::from(ZERO), |sum, i| sum + lagrange(l, i) * Polynomial::from(numbers[i]))
}

/// The sums of L_i × (list i), place by place.
fn combine_lists(lists: &[&[Element]]) -> Vec<Polynomial> {
    (0..lists[0].len())
        .map(|place| combine(&lists.iter().map(|list| list[place]).collect::<Vec<_>>()))
        .collect()
}

/// L_0(a) to L_(l-1)(a).
pub fn lagrange_at(l: usize, a: Element) -> Vec<Element> {
    (0..l).map(|i| lagrange(l, i).at(a)).collect()
}

/// The sum of L_i(a) × (number i), with the L_i(a) given.
pub fn combine_at(lagrange_at: &[Element], numbers: impl Iterator<Item = Element>) -> Element {
    lagrange_at.iter().zip(numbers).map(|(weight, number)| *weight * number).sum()
}

/// The sums of L_i(a) × (list i), place by place.
fn combine_lists_at(lagrange_at: &[Element], lists: &[&[Element]]) -> Vec<Element> {
    (0..lists[0].len()).map(|place| combine_at(lagrange_at, lists.iter().map(|list| list[place]))).collect()
}

/// How many coefficients the quotient of l items has.
pub fn quotient_count(m: usize, l: usize) -> usize {
    (l - 1) * (m + 1)
}

/// The quotient of a list of items and witnesses: the value of the combined item is the sum of L_i × e_i plus
/// Z × quotient. None if an item does not hold.
pub fn quotient(circuit: &Circuit, items: &[Item], witnesses: &[Vec<Element>]) -> Option<Vec<Element>> {
    let l = items.len();
    let r = combine_lists(&items.iter().map(|item| &item.r[..]).collect::<Vec<_>>());
    let x = combine_lists(&items.iter().map(|item| &item.x[..]).collect::<Vec<_>>());
    let w = combine_lists(&witnesses.iter().map(|w| &w[..]).collect::<Vec<_>>());
    let e = combine(&items.iter().map(|item| item.e).collect::<Vec<_>>());
    let (quotient, rest) = (value(circuit, &r, &x, &w) - e).divide(&vanishing(l));
    let count = quotient_count(items[0].r.len(), l);
    rest.is_zero().then(|| {
        assert!(Polynomial(quotient.0.iter().skip(count).copied().collect()).is_zero());
        (0..count).map(|i| quotient.coefficient(i)).collect()
    })
}

/// The r, x and e of the new item for challenge a.
pub fn fold_claim(items: &[Item], quotient: &[Element], a: Element) -> (Vec<Element>, Vec<Element>, Element) {
    let at = lagrange_at(items.len(), a);
    let r = combine_lists_at(&at, &items.iter().map(|item| &item.r[..]).collect::<Vec<_>>());
    let x = combine_lists_at(&at, &items.iter().map(|item| &item.x[..]).collect::<Vec<_>>());
    let e = combine_at(&at, items.iter().map(|item| item.e))
        + vanishing(items.len()).at(a) * Polynomial(quotient.to_vec()).at(a);
    (r, x, e)
}

/// The new witness for challenge a.
pub fn fold_witness(witnesses: &[Vec<Element>], a: Element) -> Vec<Element> {
    let at = lagrange_at(witnesses.len(), a);
    combine_lists_at(&at, &witnesses.iter().map(|w| &w[..]).collect::<Vec<_>>())
}
