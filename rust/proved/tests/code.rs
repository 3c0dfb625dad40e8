//! The proved code beside the reference: the transform at the built-in points, and direct sums at any points.

use lomvuze_proved as proved;
use lomvuze_reference::code;
use lomvuze_reference::field::{Element, P};
use lomvuze_reference::polynomial::Polynomial;
use lomvuze_trials::Random;

const COUNTS: [usize; 6] = [2, 4, 8, 16, 32, 64];

fn numbers(elements: &[Element]) -> Vec<u32> {
    elements.iter().map(|element| element.number()).collect()
}

fn elements(numbers: &[u32]) -> Vec<Element> {
    numbers.iter().map(|number| Element::reduce(*number as u64)).collect()
}

fn codeword(w: &[u32]) -> Vec<u32> {
    let mut out = vec![0xAAAA; 4 * w.len()];
    assert_eq!(proved::codeword(w, &mut out), 0);
    out
}

fn codeword_at(w: &[u32], points: &[u32]) -> Vec<u32> {
    let mut out = vec![0xAAAA; points.len()];
    assert_eq!(proved::codeword_at(w, points, &mut out), 0);
    out
}

// ---- The transform

/// Witnesses of 0, 1 and p - 1: the same everywhere, by turns, and in one half.
fn edges(k: usize) -> Vec<Vec<u32>> {
    let turns = [(0, 0), (1, 1), (P - 1, P - 1), (P - 1, 0), (0, P - 1), (1, P - 1), (P - 1, 1)];
    let halves = [(P - 1, 0), (0, P - 1)];
    let by_turns = turns.map(|(even, odd)| [even, odd].repeat(k / 2));
    let by_halves = halves.map(|(first, second)| [vec![first; k / 2], vec![second; k / 2]].concat());
    by_turns.into_iter().chain(by_halves).collect()
}

#[test]
fn codewords() {
    let mut random = Random::new(1);
    for k in COUNTS {
        let random = (0..100).map(|_| numbers(&random.elements(k)));
        for w in edges(k).into_iter().chain(random) {
            let expected = code::codeword(&code::built_in_points(k), &elements(&w));
            assert_eq!(codeword(&w), numbers(&expected), "w = {w:?}");
        }
    }
}

/// The codeword of the witness that is 1 at j, and 0 elsewhere, is the list of the points' powers j.
#[test]
fn powers_of_the_points() {
    for k in COUNTS {
        let points = code::built_in_points(k);
        for j in 0..k {
            let mut w = vec![0; k];
            w[j] = 1;
            let powers: Vec<Element> = points.iter().map(|point| point.pow(j as u64)).collect();
            assert_eq!(codeword(&w), numbers(&powers), "k = {k}, j = {j}");
        }
    }
}

#[test]
fn refusals_write_nothing() {
    for k in 0..200 {
        for count in [4 * k, 4 * k + 1, 4 * k + 4, 3 * k, 0] {
            let mut out = vec![7; count];
            let permitted = COUNTS.contains(&k) && count == 4 * k;
            assert_eq!(proved::codeword(&vec![1; k], &mut out), if permitted { 0 } else { 1 });
            assert!(permitted || out.iter().all(|value| *value == 7));
        }
    }
    for (i, number, answer) in [(0, P - 1, 0), (0, P, 1), (3, P, 1), (3, u32::MAX, 1)] {
        let (mut w, mut out) = (vec![1; 4], vec![7; 16]);
        w[i] = number;
        assert_eq!(proved::codeword(&w, &mut out), answer);
        assert!(answer == 0 || out == vec![7; 16]);
    }
}

// ---- Direct sums

/// Lists of points: none, one, the edges of the field up and down, one point many times, and random lists.
fn lists_of_points(random: &mut Random) -> Vec<Vec<u32>> {
    let edges = [0, 1, 2, P - 1, P, P + 1, 2 * P - 1, 2 * P, 2 * P + 1, u32::MAX];
    let mut lists = vec![vec![], edges.to_vec(), edges.iter().rev().copied().collect(), edges.repeat(2)];
    lists.extend(edges.map(|x| vec![x]));
    lists.push(vec![random.number(); 9]);
    lists
        .extend([1, 2, 3, 8, 255, 256, 257, 1000].map(|count| (0..count).map(|_| random.number()).collect()));
    lists
}

#[test]
fn sums_at_any_points() {
    let mut random = Random::new(2);
    for k in [0, 1, 2, 3, 7, 63, 64, 65, 200] {
        for points in lists_of_points(&mut random) {
            let w = random.elements(k);
            let polynomial = Polynomial(w.clone());
            let values: Vec<Element> = elements(&points).into_iter().map(|x| polynomial.at(x)).collect();
            assert_eq!(
                codeword_at(&numbers(&w), &points),
                numbers(&values),
                "w = {w:?}, points = {points:?}"
            );
        }
    }
}

/// At the built-in points sums and transform agree. In another order of them each value stays with its point,
/// which the transform would not give.
#[test]
fn sums_at_the_built_in_points() {
    let orders: [fn(usize, usize) -> usize; 4] =
        [|i, _| i ^ 1, |i, n| n - 1 - i, |i, n| (i + 1) % n, |i, n| 5 * i % n];
    let mut random = Random::new(3);
    for k in COUNTS {
        let w = numbers(&random.elements(k));
        let points = numbers(&code::built_in_points(k));
        let codeword = codeword(&w);
        assert_eq!(codeword_at(&w, &points), codeword, "k = {k}");
        for order in orders {
            let ordered = |list: &[u32]| -> Vec<u32> { (0..4 * k).map(|i| list[order(i, 4 * k)]).collect() };
            let values = codeword_at(&w, &ordered(&points));
            assert_eq!(values, ordered(&codeword), "k = {k}");
            assert_ne!(values, codeword, "k = {k}");
        }
    }
}

#[test]
fn refusals_of_sums_write_nothing() {
    let sizes = [(0, 0), (0, 1), (1, 0), (1, 1), (8, 7), (8, 8), (8, 9), (256, 255), (256, 256), (256, 257)];
    let below = [vec![], vec![1], vec![P - 1; 64]];
    let above = [P, u32::MAX].map(|number| [vec![number], vec![number, 1, 1], vec![1, 1, number]]);
    for w in below.into_iter().chain(above.into_iter().flatten()) {
        for (count, size) in sizes {
            let mut out = vec![7; size];
            let permitted = count == size && w.iter().all(|number| *number < P);
            let answer = proved::codeword_at(&w, &vec![2; count], &mut out);
            assert_eq!(answer, if permitted { 0 } else { 1 }, "w = {w:?}, {count} points, {size} values");
            assert!(permitted || out == vec![7; size]);
        }
    }
}

// ---- Lent points

fn bytes(points: &[u32]) -> Vec<u8> {
    points.iter().flat_map(|point| point.to_le_bytes()).collect()
}

/// Every pair of positions is compared, and every point with p.
#[test]
fn points_repeat_or_are_too_large() {
    for k in COUNTS {
        let points = numbers(&code::built_in_points(k));
        let changed = |i: usize, point: u32| {
            let mut points = points.clone();
            points[i] = point;
            proved::points(k as u32, &bytes(&points))
        };
        assert_eq!(proved::points(k as u32, &bytes(&points)), 0);
        for i in 0..4 * k {
            for (j, point) in points.iter().enumerate() {
                assert_eq!(changed(i, *point), if i == j { 0 } else { 12 }, "k = {k}, {i} and {j}");
            }
            for (point, answer) in [(0, 0), (P, 12), (P + 1, 12), (u32::MAX, 12)] {
                assert_eq!(changed(i, point), answer, "k = {k}, {point} at {i}");
            }
        }
    }
}

#[test]
fn points_of_other_counts() {
    let bytes = bytes(&(0..2000).collect::<Vec<u32>>());
    for k in 0..100 {
        for length in 0..bytes.len() {
            let fits = COUNTS.contains(&k) && (length == 0 || length == 16 * k);
            assert_eq!(proved::points(k as u32, &bytes[..length]), if fits { 0 } else { 2 });
        }
    }
}
