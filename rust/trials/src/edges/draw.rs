//! What the calls that draw are lent in the tests, for sizes of any kind.

use super::{verdict_of, Refusals};
use crate::{bytes, number_at, Call, Library, Name};
use lomvuze_calls::layout::ItemLayout;

/// What the three calls take. Numbers and digests count up.
#[derive(Clone, PartialEq, Debug)]
pub struct Draw {
    pub m: u32,
    pub n: u32,
    pub k: u32,
    pub l: u32,
    pub t: u32,
    pub challenge: u32,
    pub items: Vec<u8>,
    pub quotient: Vec<u8>,
    pub seed: Vec<u8>,
    pub root: Vec<u8>,
    pub x: Vec<u8>,
}

/// A change of what they take.
pub type Change = fn(&mut Draw);

pub const DRAWS: [Name; 3] = [Name::DrawChallenge, Name::DrawPositions, Name::DrawR];

/// Numbers that count up.
fn counting(first: u32, count: u32) -> Vec<u8> {
    bytes(&(first..first + count).collect::<Vec<_>>())
}

/// n inputs, of which the first is 1.
fn inputs(n: u32) -> Vec<u8> {
    bytes(&(0..n).map(|i| if i == 0 { 1 } else { 1000 + i }).collect::<Vec<_>>())
}

/// 32 bytes that count up.
fn digest(first: u8) -> Vec<u8> {
    (first..first + 32).collect()
}

impl Draw {
    pub fn of(m: u32, n: u32, k: u32, l: u32, t: u32) -> Draw {
        let layout = ItemLayout { m, n };
        let item = |i: u32| {
            let mut item = vec![0; layout.bytes()];
            item[..layout.r().end].copy_from_slice(&counting(100 * i, 1 + m));
            item[layout.x()].copy_from_slice(&inputs(n));
            item[layout.root()].copy_from_slice(&digest(10 * i as u8));
            item
        };
        Draw {
            m,
            n,
            k,
            l,
            t,
            challenge: l,
            items: (0..l).flat_map(item).collect(),
            quotient: counting(10_000, l.saturating_sub(1) * (m + 1)),
            seed: digest(100),
            root: digest(200),
            x: inputs(n),
        }
    }

    pub fn item_layout(&self) -> ItemLayout {
        ItemLayout { m: self.m, n: self.n }
    }

    /// A call of the three. The buffers that it writes fit, and hold 0xAA.
    pub fn call(&self, name: Name) -> Call {
        let Draw { m, n, k, l, t, challenge, items, quotient, seed, root, x } = self.clone();
        let (numbers, inputs) = match name {
            Name::DrawChallenge => (vec![m, n, k, l], vec![items, quotient]),
            Name::DrawPositions => (vec![k, l, t, challenge], vec![seed, root]),
            Name::DrawR => (vec![m, n], vec![root, x]),
            _ => panic!("{name:?} draws nothing"),
        };
        let mut call = Call { name, numbers, inputs, outputs: vec![] };
        call.outputs = name.outputs().iter().map(|part| vec![0xAA; call.length(*part).unwrap()]).collect();
        call
    }

    /// What a call writes that is accepted.
    fn writes<const COUNT: usize>(&self, by: &Library, name: Name) -> [Vec<u8>; COUNT] {
        let mut call = self.call(name);
        assert_eq!(call.run(by), 0, "{call:?}");
        call.outputs.try_into().expect("another count of buffers")
    }

    /// The seed and the challenge that are drawn.
    pub fn drawn_challenge(&self, by: &Library) -> (Vec<u8>, u32) {
        let [seed, challenge] = self.writes(by, Name::DrawChallenge);
        (seed, number_at(&challenge, 0))
    }

    pub fn drawn_positions(&self, by: &Library) -> Vec<u32> {
        let [positions] = self.writes(by, Name::DrawPositions);
        positions.chunks(4).map(|position| number_at(position, 0)).collect()
    }

    pub fn drawn_r(&self, by: &Library) -> Vec<u32> {
        let [r] = self.writes(by, Name::DrawR);
        r.chunks(4).map(|number| number_at(number, 0)).collect()
    }

    pub fn verdict(&self, by: &Library, name: Name) -> u32 {
        verdict_of(by, &self.call(name))
    }

    /// The calls that are refused.
    pub fn refusals(&self, by: &Library) -> Refusals {
        let verdicts = DRAWS.into_iter().map(|name| (name, self.verdict(by, name)));
        verdicts.filter(|(_, verdict)| *verdict != 0).collect()
    }
}
