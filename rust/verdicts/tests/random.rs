//! Random calls, honest and damaged, by the proved calls and by the reference: the same answer, the same
//! bytes in every buffer after it, and nothing written by a refusal.
//!
//! `cargo test --release --offline -p lomvuze-verdicts --test random -- --nocapture` prints how many calls had
//! which verdict.

use lomvuze_trials::answer::{after, verdict};
use lomvuze_trials::{library, points, Call, Comparison, Honest, Library, Name, Random, NAMES, REFERENCE};
use lomvuze_verdicts as calls;

const PROVED: Library = library!(calls);

/// Calls of each name that are tried, at least.
const CALLS: usize = 20_000;
const _: () = assert!(CALLS * NAMES.len() >= 100_000);

/// Calls of each name that give each of its verdicts, at least.
const EACH_VERDICT: usize = 500;

fn comparison() -> Comparison {
    Comparison::new(&PROVED, &REFERENCE)
}

fn random_calls(name: Name) {
    comparison().random_calls(name, CALLS, EACH_VERDICT);
}

lomvuze_trials::test_each_call!(random_calls);

/// The greatest sizes, 1,024 entries in each list, and the greatest count of positions, without points and with lent
/// ones.
#[test]
fn greatest_sizes() {
    let mut random = Random::new(10);
    for name in NAMES {
        let mut comparison = comparison();
        let points = points::different(&mut random, 64);
        for (t, points) in [(64, vec![]), (256, points)] {
            let list = Honest::greatest(&mut random).lent(points);
            let call = Call::over(&mut random, name, list, t);
            comparison.compare_checks(&mut random, &call);
        }
        comparison.finish(name, 2);
    }
}

/// Every number that stands for an element is p - 1, and is accepted as one. First inputs stay 1.
#[test]
fn greatest_elements() {
    let mut random = Random::new(11);
    for name in NAMES {
        for _ in 0..100 {
            let mut call = Call::honest(&mut random, name);
            for i in 0..call.inputs.len() {
                let first = call.first_inputs_of(i);
                for at in call.elements_of(i).into_iter().filter(|at| !first.contains(at)) {
                    lomvuze_trials::put(&mut call.inputs[i], at, 2013265920);
                }
            }
            assert!(![3, 13].contains(&verdict(comparison().compare(&call))));
        }
    }
}

/// Input buffers may be the same memory: one list of entries as A, B and C; an item that is folded alone, at
/// the challenge that gives it back, as the new item; the first points as the witness.
#[test]
fn inputs_may_overlap() {
    let mut random = Random::new(12);
    for _ in 0..100 {
        let list = Honest::of_small_size(&mut random);
        let (m, n, k, a, points) = (list.m, list.n, list.k, &list.a, &list.points);
        let (item, w) = (&list.items[..list.item_length()], &list.witnesses[..list.witness_length()]);
        let [proved, reference] = [PROVED, REFERENCE].map(|by| by.decide(m, n, k, points, a, a, a, item, w));
        assert_eq!(proved, reference);

        let position = &lomvuze_trials::bytes(&[random.below(4 * k as usize) as u32]);
        let mut opening = vec![0; list.opening_length()];
        assert_eq!(PROVED.open(k, 1, points, w, position, &mut opening), 0);
        let answer = PROVED.verify(m, n, k, 1, 1, 1, item, position, &[], item, &opening.repeat(2));
        assert_eq!(answer, after(2, k, 0));

        let points = points::built_in(k);
        let [proved, reference] = [PROVED, REFERENCE].map(|by| {
            let (mut code, mut root) = (vec![0; 16 * k as usize], [0; 32]);
            let w = &points[..4 * k as usize];
            (by.encode(k, &points, w, &mut code, &mut root), code, root)
        });
        assert_eq!(proved, reference);
    }
}

/// The same in drawing: e and r of the first item as the quotient, one digest as seed and root, the first inputs as root.
#[test]
fn inputs_of_draws_may_overlap() {
    let mut random = Random::new(13);
    for _ in 0..100 {
        let items = &Honest::random(&mut random, 1, 2, 2, 2).items;
        let digest = &random.digest();
        let x: Vec<u32> = random.inputs(8).iter().map(|input| input.number()).collect();
        let x = &lomvuze_trials::bytes(&x);
        let [proved, reference] = [PROVED, REFERENCE].map(|by| {
            let (mut seed, mut challenge, mut positions, mut r) = ([0; 32], [0; 4], [0; 1024], [0; 24]);
            let answers = [
                by.draw_challenge(1, 2, 2, 2, items, &items[..8], &mut seed, &mut challenge),
                by.draw_positions(64, 2, 256, 2, digest, digest, &mut positions),
                by.draw_r(6, 8, x, x, &mut r),
            ];
            assert_eq!(answers, [0; 3]);
            (seed, challenge, positions, r)
        });
        assert_eq!(proved, reference);
    }
}
