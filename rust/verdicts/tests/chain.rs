//! Whole chains by the proved calls: folding an honest list, opening each witness, verifying and deciding all
//! give the verdict zero, with the bytes that the reference writes, and verifying hashes all openings. Challenge and
//! positions are random, or drawn. Of the random lists most are lent points.

use lomvuze_reference::field::P;
use lomvuze_trials::{bytes, library, points, Chain, Honest, Library, Random, REFERENCE};
use lomvuze_verdicts as calls;

const PROVED: Library = library!(calls);

fn random_challenge(random: &mut Random, list: &Honest) -> u32 {
    list.l + random.below((P - list.l) as usize) as u32
}

fn random_positions(random: &mut Random, list: &Honest, most: usize) -> Vec<u32> {
    let count = 1 + random.below(most.min(4 * list.k as usize));
    (0..count).map(|_| random.below(4 * list.k as usize) as u32).collect()
}

/// Folds and opens, by the proved calls; the chain's verifying and deciding accept.
fn accepted(list: &Honest, challenge: u32, positions: &[u32]) -> Chain {
    let chain = Chain::new(&PROVED, list, challenge, positions);
    chain.assert_accepted(&PROVED, list);
    chain
}

#[test]
fn small_chains() {
    let mut random = Random::new(1);
    for _ in 0..1000 {
        let list = Honest::of_small_size(&mut random);
        let challenge = random_challenge(&mut random, &list);
        let positions = random_positions(&mut random, &list, 8);
        let chain = accepted(&list, challenge, &positions);
        assert!(chain == Chain::new(&REFERENCE, &list, challenge, &positions));
    }
}

#[test]
fn chains_of_any_size() {
    let mut random = Random::new(2);
    for _ in 0..200 {
        let list = Honest::of_any_size(&mut random);
        let challenge = random_challenge(&mut random, &list);
        let positions = random_positions(&mut random, &list, 256);
        let chain = accepted(&list, challenge, &positions);
        chain.assert_accepted(&REFERENCE, &list);
    }
}

/// The least and the greatest sizes, at all positions, with the least and the greatest challenge, and without points
/// and with lent ones.
#[test]
fn extreme_chains() {
    let mut random = Random::new(3);
    let (least, greatest) = (Honest::random(&mut random, 0, 1, 2, 1), Honest::greatest(&mut random));
    let lent = [&least, &greatest].map(|list| {
        let points = points::different(&mut random, list.k);
        list.clone().lent(points)
    });
    for list in [least, greatest].into_iter().chain(lent) {
        let all: Vec<u32> = (0..4 * list.k).collect();
        for challenge in [list.l, P - 1] {
            let chain = accepted(&list, challenge, &all);
            chain.assert_accepted(&REFERENCE, &list);
        }
    }
}

/// A folded item and its witness are folded again with fresh ones.
#[test]
fn folds_of_folds() {
    let mut random = Random::new(4);
    let points = points::different(&mut random, 8);
    let mut list = Honest::random(&mut random, 3, 2, 8, 4).lent(points);
    for _ in 0..100 {
        let challenge = random_challenge(&mut random, &list);
        let positions = random_positions(&mut random, &list, 32);
        let chain = accepted(&list, challenge, &positions);
        list.items.splice(..list.item_length(), chain.new_item);
        list.witnesses.splice(..list.witness_length(), chain.new_witness);
    }
}

// ---- Drawn numbers

/// Folds and opens at drawn numbers, by the proved calls; the chain's verifying and deciding accept, and the reference
/// draws the same numbers from the bytes that verifying is lent.
fn accepted_as_drawn(list: &Honest, t: u32) -> Chain {
    let (seed, chain) = Chain::drawn(&PROVED, list, t);
    chain.assert_accepted(&PROVED, list);
    assert_eq!((seed, chain.challenge, chain.positions.clone()), chain.draw_again(&REFERENCE, list));
    chain
}

#[test]
fn small_drawn_chains() {
    let mut random = Random::new(5);
    for _ in 0..1000 {
        let list = Honest::of_small_size(&mut random);
        let t = 1 + random.below(8.min(4 * list.k as usize)) as u32;
        accepted_as_drawn(&list, t);
        assert!(Chain::drawn(&PROVED, &list, t) == Chain::drawn(&REFERENCE, &list, t));
    }
}

#[test]
fn drawn_chains_of_any_size() {
    let mut random = Random::new(6);
    for _ in 0..200 {
        let list = Honest::of_any_size(&mut random);
        let t = 1 + random.below(4 * list.k as usize) as u32;
        let chain = accepted_as_drawn(&list, t);
        chain.assert_accepted(&REFERENCE, &list);
    }
}

#[test]
fn extreme_drawn_chains() {
    let mut random = Random::new(7);
    let (least, greatest) = (Honest::random(&mut random, 0, 1, 2, 1), Honest::greatest(&mut random));
    let points = points::different(&mut random, 64);
    for list in [least, greatest.clone(), greatest.lent(points)] {
        for t in [1, 4 * list.k] {
            accepted_as_drawn(&list, t);
        }
    }
}

/// Statements of four rows: row j says that w_j times the next number of w is x_(j + 1). Each r is drawn from root and x,
/// before casting; the items are then folded, and new items with them, at drawn numbers.
#[test]
fn chains_of_drawn_r() {
    let entries = |column: fn(u32) -> u32| bytes(&[0, 1, 2, 3].map(|j| [j, column(j), 1]).concat());
    let (a, b, c) = (entries(|j| 5 + j), entries(|j| 5 + (j + 1) % 4), entries(|j| 1 + j));
    let mut random = Random::new(8);
    let mut list =
        Honest { m: 2, n: 5, k: 4, l: 3, points: vec![], a, b, c, items: vec![], witnesses: vec![] };
    for i in 0..100 {
        let from = (i > 0) as usize;
        list.items.truncate(from * list.item_length());
        list.witnesses.truncate(from * list.witness_length());
        for _ in from..3 {
            let (item, w) = cast_with_drawn_r(&mut random, &list);
            list.items.extend(item);
            list.witnesses.extend(w);
        }
        let chain = accepted_as_drawn(&list, 16);
        list.items.splice(..list.item_length(), chain.new_item);
        list.witnesses.splice(..list.witness_length(), chain.new_witness);
    }
}

/// A random statement of the list's circuit, cast with its drawn r: the item, and the witness.
fn cast_with_drawn_r(random: &mut Random, list: &Honest) -> (Vec<u8>, Vec<u8>) {
    let Honest { m, n, k, points, a, b, c, .. } = list;
    let w = random.elements(4);
    let products = (0..4).map(|j| (w[j] * w[(j + 1) % 4]).number());
    let x = bytes(&[1].into_iter().chain(products).collect::<Vec<u32>>());
    let w = bytes(&w.iter().map(|number| number.number()).collect::<Vec<u32>>());
    let (mut code, mut root, mut item) = (vec![0; 64], vec![0; 32], vec![0; list.item_length()]);
    assert_eq!(PROVED.encode(*k, points, &w, &mut code, &mut root), 0);
    let [r, by_reference] = [PROVED, REFERENCE].map(|by| {
        let mut r = vec![0; 8];
        assert_eq!(by.draw_r(*m, *n, &root, &x, &mut r), 0);
        r
    });
    assert_eq!(r, by_reference);
    assert_eq!(PROVED.cast(*m, *n, *k, points, a, b, c, &r, &x, &w, &mut item), 0);
    let layout = list.item_layout();
    assert_eq!(item[layout.e()], [0; 4]);
    assert_eq!((&item[layout.r()], &item[layout.x()], &item[layout.root()]), (&r[..], &x[..], &root[..]));
    (item, w)
}
