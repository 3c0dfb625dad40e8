//! The fold at whose edges the tests look, with what every call is lent for it.

use super::{verdict_of, Refusals};
use crate::{bytes, put, Call, Library, Name};
use lomvuze_calls::layout::{ItemLayout, OpeningLayout};
use lomvuze_reference::sheet::{self, Pair, Sheet};
use std::collections::BTreeMap;
use std::ops::{Index, IndexMut};

pub const ITEM: ItemLayout = ItemLayout { m: 0, n: 2 };
pub const OPENING: OpeningLayout = OpeningLayout { k: 2 };

/// The length of an item, and of an opening.
pub const ITEM_BYTES: usize = ITEM.bytes();
pub const OPENING_BYTES: usize = OPENING.bytes();

/// The calls that are tried at the fold, by hand. What holds for all calls is tested for all of them, by their description.
pub const CALLS: [Name; 12] = [
    Name::Encode,
    Name::Cast,
    Name::Quotient,
    Name::Fold,
    Name::Open,
    Name::Interleave,
    Name::Verify,
    Name::Decide,
    Name::DrawChallenge,
    Name::DrawPositions,
    Name::DrawR,
    Name::ReadSheet,
];

/// Those of which something holds.
pub fn those_that(holds: impl Fn(Name) -> bool) -> Vec<Name> {
    CALLS.into_iter().filter(|name| holds(*name)).collect()
}

/// A change of what the calls are lent.
pub type Change = fn(&mut Fold);

/// A fold of (1, 6; 2, 3) and (1, 20; 4, 5) under the circuit w0 × w1 = x1, at the positions 0, 7 and 4: the numbers that
/// calls take, and the buffers that they read, by their names.
#[derive(Clone, PartialEq, Debug)]
pub struct Fold {
    pub m: u32,
    pub n: u32,
    pub k: u32,
    pub l: u32,
    pub t: u32,
    pub challenge: u32,
    read: BTreeMap<&'static str, Vec<u8>>,
}

impl Index<&'static str> for Fold {
    type Output = Vec<u8>;

    fn index(&self, buffer: &'static str) -> &Vec<u8> {
        self.read.get(buffer).unwrap_or_else(|| panic!("no buffer {buffer}"))
    }
}

impl IndexMut<&'static str> for Fold {
    fn index_mut(&mut self, buffer: &'static str) -> &mut Vec<u8> {
        self.read.entry(buffer).or_default()
    }
}

impl Fold {
    /// No points are lent.
    pub fn new(by: &Library) -> Fold {
        Fold::lent(by, &[])
    }

    /// Every call that takes points is lent these.
    pub fn lent(by: &Library, points: &[u32]) -> Fold {
        let (m, n, k, l, t, challenge) = (0, 2, 2, 2, 3, 2);
        let mut all = Fold { m, n, k, l, t, challenge, read: BTreeMap::new() };
        let buffers: [(&str, &[u32]); 9] = [
            ("points", points),
            ("a", &[0, 2, 1]),
            ("b", &[0, 3, 1]),
            ("c", &[0, 1, 1]),
            ("r", &[]),
            ("x", &[1, 6]),
            ("w", &[2, 3]),
            ("wits", &[2, 3, 4, 5]),
            ("positions", &[0, 7, 4]),
        ];
        all.read = buffers.map(|(name, numbers)| (name, bytes(numbers))).into();
        all["sheet"] = sheet::write(&printed());
        all["seed"] = (100..132).collect();
        let [first] = all.writes(by, Name::Cast);
        all["root"] = first[ITEM.root()].to_vec();
        let mut second = all.clone();
        (second["x"], second["w"]) = (bytes(&[1, 20]), bytes(&[4, 5]));
        let [second] = second.writes(by, Name::Cast);
        all["items"] = [first, second].concat();
        let [quotient, item, witness] = all.writes(by, Name::Fold);
        (all["quotient"], all["new_item"], all["item"], all["wit"]) = (quotient, item.clone(), item, witness);
        all["opened"] =
            [bytes(&[2, 3]), bytes(&[4, 5]), all["wit"].clone()].map(|w| all.opened(by, w)).concat();
        let [openings] = all.writes(by, Name::Interleave);
        all["openings"] = openings;
        all
    }

    /// The openings of a witness.
    fn opened(&self, by: &Library, w: Vec<u8>) -> Vec<u8> {
        let mut all = self.clone();
        all["w"] = w;
        let [openings] = all.writes(by, Name::Open);
        openings
    }

    fn number(&self, name: &str) -> u32 {
        match name {
            "m" => self.m,
            "n" => self.n,
            "k" => self.k,
            "l" => self.l,
            "t" => self.t,
            "challenge" => self.challenge,
            _ => panic!("no number {name}"),
        }
    }

    /// A call with these numbers and buffers. Those that it writes have the lengths of the fold, whatever the numbers are, and
    /// hold 0xAA.
    pub fn call(&self, name: Name) -> Call {
        let numbers = name.numbers().iter().map(|name| self.number(name)).collect();
        let inputs = name.description().inputs.iter().map(|buffer| self[buffer.name].clone()).collect();
        let mut call = Call { name, numbers, inputs, outputs: vec![] };
        let sizes = [("m", 0), ("n", 2), ("k", 2), ("l", 2), ("t", 3), ("challenge", 2)];
        let size = |name: &str| sizes.iter().find(|(of, _)| *of == name).expect("a number").1;
        let written = name.outputs().iter().map(|part| vec![0xAA; part.length().bytes(&size).unwrap()]);
        call.outputs = written.collect();
        call
    }

    /// What a call writes that is accepted.
    pub fn writes<const COUNT: usize>(&self, by: &Library, name: Name) -> [Vec<u8>; COUNT] {
        let mut call = self.call(name);
        assert_eq!(call.run(by), 0, "{name:?}");
        call.outputs.try_into().expect("another count of buffers")
    }

    pub fn verdict(&self, by: &Library, name: Name) -> u32 {
        verdict_of(by, &self.call(name))
    }

    /// The calls that are refused.
    pub fn refusals(&self, by: &Library) -> Refusals {
        let verdicts = CALLS.into_iter().map(|name| (name, self.verdict(by, name)));
        verdicts.filter(|(_, verdict)| *verdict != 0).collect()
    }

    /// The answer of verifying: verdict and blocks.
    pub fn verified(&self, by: &Library) -> u64 {
        self.call(Name::Verify).run(by)
    }

    /// Gives the new item the root and the openings of item 1.
    pub fn show_item_1_as_the_new_one(&mut self) {
        let root = self["items"][ITEM_BYTES..][ITEM.root()].to_vec();
        self["new_item"][ITEM.root()].copy_from_slice(&root);
        for q in 0..3 {
            let opening = self["openings"][(3 * q + 1) * OPENING_BYTES..][..OPENING_BYTES].to_vec();
            self["openings"][(3 * q + 2) * OPENING_BYTES..][..OPENING_BYTES].copy_from_slice(&opening);
        }
    }

    /// Flips a bit of a root: of the first item, and of the new one.
    pub fn change_roots(&mut self) {
        for buffer in ["items", "new_item", "item"] {
            self[buffer][ITEM.root().end - 1] ^= 1;
        }
    }

    /// Puts a number in the place of the first inputs: of x, of these items, and of the new one.
    pub fn put_first_inputs(&mut self, items: &[usize], number: u32) {
        put(&mut self["x"], 0, number);
        for buffer in ["new_item", "item"] {
            put(&mut self[buffer], ITEM.first_input().start, number);
        }
        for i in items {
            put(&mut self["items"], i * ITEM_BYTES + ITEM.first_input().start, number);
        }
    }

    /// Puts a number in the new item, as verifying and as deciding read it.
    pub fn put_new_item(&mut self, at: usize, number: u32) {
        for buffer in ["new_item", "item"] {
            put(&mut self[buffer], at, number);
        }
    }
}

/// The sheet that the scope paper prints, whose first pair is the first item of the fold.
fn printed() -> Sheet {
    let pair = |x: u32, w: [u32; 2]| Pair { numbers: vec![0, 1, x], root: [0; 32], witness: w.to_vec() };
    Sheet {
        size: [0, 2, 2],
        a: vec![[0, 2, 1]],
        b: vec![[0, 3, 1]],
        c: vec![[0, 1, 1]],
        pairs: vec![pair(6, [2, 3]), pair(21, [4, 5])],
        end: 2,
    }
}

/// The verdict of a call after a change.
pub fn verdict(by: &Library, name: Name, change: impl Fn(&mut Fold)) -> u32 {
    let mut all = Fold::new(by);
    change(&mut all);
    all.verdict(by, name)
}

/// The calls that are refused after a change.
pub fn refusals_after(by: &Library, change: impl Fn(&mut Fold)) -> Refusals {
    let mut all = Fold::new(by);
    change(&mut all);
    all.refusals(by)
}
