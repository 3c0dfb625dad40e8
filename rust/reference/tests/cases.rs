//! The scope paper's cases C1 to C10, with 1 as first input. The circuit is w0 × w1 = x1.

use lomvuze_reference::claims::{self, Circuit, Entry, Item};
use lomvuze_reference::code;
use lomvuze_reference::field::{Element, P, ZERO};
use lomvuze_reference::sha256::Digest;

fn element(number: u32) -> Element {
    Element::new(number).unwrap()
}

fn elements(numbers: &[u32]) -> Vec<Element> {
    numbers.iter().map(|number| element(*number)).collect()
}

fn numbers(elements: &[Element]) -> Vec<u32> {
    elements.iter().map(|element| element.number()).collect()
}

fn circuit() -> Circuit {
    let one = |column| vec![Entry { row: 0, column, value: element(1) }];
    Circuit { a: one(2), b: one(3), c: one(1) }
}

/// The root of a witness at the built-in points.
fn root(w: &[Element]) -> Digest {
    code::root(&code::built_in_points(w.len()), w)
}

/// The item and the witness of (1, x; w) with e = 0 and m = 0.
fn claim(x: u32, w: [u32; 2]) -> (Item, Vec<Element>) {
    let w = elements(&w);
    (Item { e: ZERO, r: vec![], x: elements(&[1, x]), root: root(&w) }, w)
}

/// The value of (1, x; w).
fn value(x: u32, w: [u32; 2]) -> u32 {
    claims::value(&circuit(), &[], &elements(&[1, x]), &elements(&w)).number()
}

/// (x, w, e) of the fold at a.
fn fold(items: &[Item], witnesses: &[Vec<Element>], quotient: &[u32], a: u32) -> (Vec<u32>, Vec<u32>, u32) {
    let (r, x, e) = claims::fold_claim(items, &elements(quotient), element(a));
    assert!(r.is_empty());
    (numbers(&x), numbers(&claims::fold_witness(witnesses, element(a))), e.number())
}

#[test]
fn c1_c2_value() {
    assert_eq!(value(6, [2, 3]), 0);
    assert_eq!(value(21, [4, 5]), 2013265920);
}

#[test]
fn c3_weights() {
    let r = elements(&[2, 5]);
    let weights: Vec<u32> = (0..4).map(|j| claims::weight(&r, j).number()).collect();
    assert_eq!(weights, [4, 2013265913, 2013265916, 10]);
    assert_eq!(claims::weight::<Element>(&[], 0).number(), 1);
}

#[test]
fn c4_lagrange() {
    let at_2: Vec<u32> = (0..2).map(|i| claims::lagrange(2, i).at(element(2)).number()).collect();
    assert_eq!(at_2, [2013265920, 2]);
}

#[test]
fn c5_c6_c7_fold() {
    let (items, witnesses): (Vec<_>, Vec<_>) = [claim(6, [2, 3]), claim(20, [4, 5])].into_iter().unzip();
    let quotient = numbers(&claims::quotient(&circuit(), &items, &witnesses).unwrap());
    assert_eq!(quotient, [4]);
    assert_eq!(fold(&items, &witnesses, &quotient, 2), (vec![1, 34], vec![6, 7], 8));
    assert_eq!(fold(&items, &witnesses, &quotient, 3), (vec![1, 48], vec![8, 9], 24));
}

#[test]
fn c8_an_item_that_does_not_hold() {
    let (items, witnesses): (Vec<_>, Vec<_>) = [claim(6, [2, 3]), claim(21, [4, 5])].into_iter().unzip();
    assert!(claims::quotient(&circuit(), &items, &witnesses).is_none());
    assert_eq!(fold(&items, &witnesses, &[3], 2), (vec![1, 36], vec![6, 7], 6));
    assert_eq!(value(36, [6, 7]), 6);
    let (x, w, e) = fold(&items, &witnesses, &[3], 3);
    assert_eq!((x[0], value(x[1], [w[0], w[1]])), (1, 21));
    assert_eq!(e, 18);
}

#[test]
fn c9_codeword() {
    let codeword = code::codeword(&code::built_in_points(2), &elements(&[2, 3]));
    assert_eq!(codeword.len(), 8);
    assert_eq!(codeword[0].number(), 5);
    assert_eq!(codeword[4].number(), 2013265920);
}

#[test]
fn c10_one_item() {
    let (item, w) = claim(6, [2, 3]);
    let (items, witnesses) = ([item], [w]);
    assert_eq!(claims::quotient(&circuit(), &items, &witnesses).unwrap(), []);
    assert_eq!(fold(&items, &witnesses, &[], 1), (vec![1, 6], vec![2, 3], 0));
    assert_eq!(root(&claims::fold_witness(&witnesses, element(1))), items[0].root);
}

/// The 256 points for k = 64: the first is 1, each is the one before times one root, and a smaller k takes
/// every (64/k)-th of them.
#[test]
fn points() {
    let all = code::built_in_points(64);
    assert_eq!(all.len(), 256);
    assert_eq!(all[0].number(), 1);
    for i in 1..256 {
        assert_eq!(all[i], all[i - 1] * all[1]);
        assert!(!all[..i].contains(&all[i]));
    }
    for k in [2, 4, 8, 16, 32, 64] {
        let every = all.iter().step_by(64 / k).copied().collect::<Vec<_>>();
        assert_eq!(code::built_in_points(k), every);
    }
}

/// A codeword at other points, 0 and p - 1 among them: 2 + 3 × point.
#[test]
fn codeword_at_other_points() {
    let points = elements(&[0, P - 1, 5, 1, 2, 3, 4, 6]);
    let codeword = code::codeword(&points, &elements(&[2, 3]));
    assert_eq!(numbers(&codeword), [2, P - 1, 17, 5, 8, 11, 14, 20]);
}

/// The value as a polynomial meets the value at each challenge, and the quotient has one list of
/// coefficients.
#[test]
fn quotient_describes_the_value() {
    let (items, witnesses): (Vec<_>, Vec<_>) =
        [claim(6, [2, 3]), claim(20, [4, 5]), claim(42, [6, 7])].into_iter().unzip();
    let quotient = claims::quotient(&circuit(), &items, &witnesses).unwrap();
    assert_eq!(quotient.len(), claims::quotient_count(0, 3));
    for a in 3..20 {
        let (x, w, e) = fold(&items, &witnesses, &numbers(&quotient), a);
        assert_eq!((x[0], value(x[1], [w[0], w[1]])), (1, e));
    }
}
