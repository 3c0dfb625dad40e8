//! The chain of calls: honest lists pass, and what is damaged is refused with its number.

use lomvuze_reference::calls;
use lomvuze_reference::field::P;
use lomvuze_trials::answer::{after, after_all};
use lomvuze_trials::{number_at, points, put, Chain, Honest, Random, REFERENCE};

fn random_chain(random: &mut Random, list: &Honest) -> Chain {
    let challenge = list.l + random.below((P - list.l) as usize) as u32;
    let positions: Vec<u32> = (0..1 + random.below(12.min(4 * list.k as usize)))
        .map(|_| random.below(4 * list.k as usize) as u32)
        .collect();
    Chain::new(&REFERENCE, list, challenge, &positions)
}

#[test]
fn honest_lists_pass() {
    let mut random = Random::new(1);
    for _ in 0..60 {
        let list = Honest::of_any_size(&mut random);
        let chain = random_chain(&mut random, &list);
        chain.assert_accepted(&REFERENCE, &list);
    }
}

/// At drawn numbers: drawn again from the bytes that verifying is lent, they are the same.
#[test]
fn honest_lists_pass_at_drawn_numbers() {
    let mut random = Random::new(6);
    for _ in 0..60 {
        let list = Honest::of_any_size(&mut random);
        let t = 1 + random.below(12.min(4 * list.k as usize)) as u32;
        let (seed, chain) = Chain::drawn(&REFERENCE, &list, t);
        chain.assert_accepted(&REFERENCE, &list);
        assert_eq!((seed, chain.challenge, chain.positions.clone()), chain.draw_again(&REFERENCE, &list));
    }
}

#[test]
fn all_positions_and_largest_sizes() {
    let mut random = Random::new(2);
    let greatest = Honest::random(&mut random, 6, 64, 64, 8);
    let points = points::different(&mut random, 64);
    for list in [greatest.clone(), greatest.lent(points), Honest::random(&mut random, 0, 1, 2, 1)] {
        let all: Vec<u32> = (0..4 * list.k).collect();
        for challenge in [list.l, P - 1] {
            let chain = Chain::new(&REFERENCE, &list, challenge, &all);
            chain.assert_accepted(&REFERENCE, &list);
        }
    }
}

/// A folded item and its witness are folded again with a fresh one.
#[test]
fn folds_of_folds() {
    let mut random = Random::new(3);
    let mut list = Honest::random(&mut random, 3, 2, 8, 2);
    for _ in 0..5 {
        let chain = random_chain(&mut random, &list);
        chain.assert_accepted(&REFERENCE, &list);
        list.items.splice(..list.item_length(), chain.new_item);
        list.witnesses.splice(..list.witness_length(), chain.new_witness);
    }
}

/// One more, modulo p, at a place of a buffer.
fn bump(buffer: &mut [u8], at: usize) {
    put(buffer, at, (number_at(buffer, at) + 1) % P);
}

/// The chain with another witness behind the root of the new item: the openings lead to it, and are no combination.
fn with_another_witness(list: &Honest, chain: &Chain) -> Chain {
    let mut damaged = chain.clone();
    let mut w = list.witnesses[..list.witness_length()].to_vec();
    bump(&mut w, 0);
    let (mut code, mut root) = (vec![0; 16 * list.k as usize], vec![0; 32]);
    assert_eq!(calls::encode(list.k, &list.points, &w, &mut code, &mut root), 0);
    damaged.new_item[list.item_layout().root()].copy_from_slice(&root);
    let mut openings = vec![0; chain.t as usize * list.opening_length()];
    assert_eq!(calls::open(list.k, chain.t, &list.points, &w, &chain.positions, &mut openings), 0);
    for (q, opening) in openings.chunks(list.opening_length()).enumerate() {
        let at = (q * 4 + 3) * list.opening_length();
        damaged.openings[at..at + opening.len()].copy_from_slice(opening);
    }
    damaged
}

#[test]
fn damaged_folds_are_refused() {
    let mut random = Random::new(4);
    for _ in 0..20 {
        let points = points::any(&mut random, 4);
        let list = Honest::random(&mut random, 2, 3, 4, 3).lent(points);
        let chain = random_chain(&mut random, &list);
        let item = 4 * random.below(6);

        let mut damaged = chain.clone();
        bump(&mut damaged.new_item, item);
        assert_eq!(damaged.verify(&REFERENCE, &list), 7);

        let mut damaged = chain.clone();
        bump(&mut damaged.quotient, 4 * random.below(6));
        assert_eq!(damaged.verify(&REFERENCE, &list), 7);

        // Any byte of any opening: its value, or a digest of its path. It and those before it are hashed.
        let mut damaged = chain.clone();
        let j = random.below(4 * chain.t as usize);
        let (opening, refused) = (j * list.opening_length(), after(j + 1, list.k, 8));
        let siblings = list.opening_layout().siblings();
        damaged.openings[opening + siblings.start + random.below(siblings.len())] ^= 1 << random.below(8);
        assert_eq!(damaged.verify(&REFERENCE, &list), refused);
        let mut damaged = chain.clone();
        bump(&mut damaged.openings, opening);
        assert_eq!(damaged.verify(&REFERENCE, &list), refused);

        let damaged = with_another_witness(&list, &chain);
        assert_eq!(damaged.verify(&REFERENCE, &list), after_all(list.k, list.l, chain.t, 9));

        // Deciding: another witness, or another e.
        let mut damaged = chain.clone();
        bump(&mut damaged.new_witness, 4 * random.below(list.k as usize));
        assert_eq!(damaged.decide(&REFERENCE, &list), 10);
        let mut damaged = chain.clone();
        bump(&mut damaged.new_item, 0);
        assert_eq!(damaged.decide(&REFERENCE, &list), 11);
    }
}

/// That of an item is 13. That of the new item is 7 in verifying, and 13 in deciding.
#[test]
fn other_first_inputs_are_refused() {
    let mut random = Random::new(5);
    for _ in 0..20 {
        let list = Honest::of_small_size(&mut random);
        let chain = random_chain(&mut random, &list);
        let first = list.item_layout().first_input().start;

        let mut other = list.clone();
        bump(&mut other.items, random.below(list.l as usize) * list.item_length() + first);
        assert_eq!((chain.verify(&REFERENCE, &other), chain.decide(&REFERENCE, &other)), (13, 0));

        let mut damaged = chain.clone();
        bump(&mut damaged.new_item, first);
        assert_eq!((damaged.verify(&REFERENCE, &list), damaged.decide(&REFERENCE, &list)), (7, 13));
    }
}
