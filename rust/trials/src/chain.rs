//! The chain of calls for an honest list: what folding and opening write, and what verifying and deciding are
//! lent. Challenge and positions are given, or drawn.

use crate::{answer, bytes, number_at, Honest, Library};

/// One fold of an honest list.
#[derive(Clone, PartialEq, Debug)]
pub struct Chain {
    pub challenge: u32,
    pub t: u32,
    pub positions: Vec<u8>,
    pub quotient: Vec<u8>,
    pub new_item: Vec<u8>,
    pub new_witness: Vec<u8>,
    pub openings: Vec<u8>,
}

impl Chain {
    /// Folds, opens each witness, and puts the openings in the verifier's order.
    pub fn new(by: &Library, list: &Honest, challenge: u32, positions: &[u32]) -> Chain {
        let mut chain = Chain::folded(by, list, challenge);
        chain.open(by, list, bytes(positions));
        chain
    }

    /// The same with challenge and positions drawn: each call is lent what those before it wrote. The seed comes first.
    pub fn drawn(by: &Library, list: &Honest, t: u32) -> (Vec<u8>, Chain) {
        let Honest { m, n, k, l, points, a, b, c, items, witnesses } = list;
        let mut quotient = vec![0; list.quotient_length()];
        let answer = by.quotient(*m, *n, *k, *l, points, a, b, c, items, witnesses, &mut quotient);
        assert_eq!(answer, 0);
        let (seed, challenge) = draw_challenge(by, list, &quotient);
        let mut chain = Chain::folded(by, list, challenge);
        assert_eq!(chain.quotient, quotient);
        let positions = chain.draw_positions(by, list, &seed, t);
        chain.open(by, list, positions);
        (seed, chain)
    }

    /// Seed, challenge and positions as they are drawn from the items and from what this chain wrote.
    pub fn draw_again(&self, by: &Library, list: &Honest) -> (Vec<u8>, u32, Vec<u8>) {
        let (seed, challenge) = draw_challenge(by, list, &self.quotient);
        let positions = self.draw_positions(by, list, &seed, self.t);
        (seed, challenge, positions)
    }

    /// Folds. Nothing is opened.
    fn folded(by: &Library, list: &Honest, challenge: u32) -> Chain {
        let (mut quotient, mut new_item, mut new_witness) =
            (vec![0; list.quotient_length()], vec![0; list.item_length()], vec![0; list.witness_length()]);
        let answer = by.fold(
            list.m,
            list.n,
            list.k,
            list.l,
            challenge,
            &list.points,
            &list.a,
            &list.b,
            &list.c,
            &list.items,
            &list.witnesses,
            &mut quotient,
            &mut new_item,
            &mut new_witness,
        );
        assert_eq!(answer, 0);
        Chain { challenge, t: 0, positions: vec![], quotient, new_item, new_witness, openings: vec![] }
    }

    /// Opens each witness at these positions, and puts the openings in the verifier's order.
    fn open(&mut self, by: &Library, list: &Honest, positions: Vec<u8>) {
        let t = positions.len() as u32 / 4;
        let mut opened = vec![];
        for w in list.witnesses.chunks(list.witness_length()).chain([&self.new_witness[..]]) {
            let mut openings = vec![0; t as usize * list.opening_length()];
            assert_eq!(by.open(list.k, t, &list.points, w, &positions, &mut openings), 0);
            opened.extend(openings);
        }
        self.openings = vec![0; opened.len()];
        assert_eq!(by.interleave(list.k, list.l, t, &opened, &mut self.openings), 0);
        (self.t, self.positions) = (t, positions);
    }

    /// Draws t positions from a seed, the challenge and the root of the new item.
    fn draw_positions(&self, by: &Library, list: &Honest, seed: &[u8], t: u32) -> Vec<u8> {
        let (root, mut positions) = (&self.new_item[list.item_layout().root()], vec![0; 4 * t as usize]);
        assert_eq!(by.draw_positions(list.k, list.l, t, self.challenge, seed, root, &mut positions), 0);
        positions
    }

    /// The answer of verifying, verdict and blocks.
    pub fn verify(&self, by: &Library, list: &Honest) -> u64 {
        by.verify(
            list.m,
            list.n,
            list.k,
            list.l,
            self.t,
            self.challenge,
            &list.items,
            &self.positions,
            &self.quotient,
            &self.new_item,
            &self.openings,
        )
    }

    /// The answer of verifying where it accepts.
    pub fn accepted(&self, list: &Honest) -> u64 {
        answer::after_all(list.k, list.l, self.t, 0)
    }

    pub fn decide(&self, by: &Library, list: &Honest) -> u32 {
        let Honest { m, n, k, points, a, b, c, .. } = list;
        by.decide(*m, *n, *k, points, a, b, c, &self.new_item, &self.new_witness)
    }

    /// Verifying and deciding accept, and verifying hashes all openings.
    #[track_caller]
    pub fn assert_accepted(&self, by: &Library, list: &Honest) {
        assert_eq!((self.verify(by, list), self.decide(by, list)), (self.accepted(list), 0));
    }
}

/// Draws seed and challenge from the items and a quotient.
fn draw_challenge(by: &Library, list: &Honest, quotient: &[u8]) -> (Vec<u8>, u32) {
    let Honest { m, n, k, l, items, .. } = list;
    let (mut seed, mut challenge) = (vec![0; 32], [0; 4]);
    assert_eq!(by.draw_challenge(*m, *n, *k, *l, items, quotient, &mut seed, &mut challenge), 0);
    (seed, number_at(&challenge, 0))
}
