//! A fold, and the calls on it.

use crate::longest::longest_buffer;
use lomvuze::{cast, decide, encode, fold, interleave, open, quotient, verify};
use lomvuze::{draw_challenge, draw_positions, draw_r};
use lomvuze::{
    Challenge, Circuit, Folded, Item, Opening, Points, Positions, PublicInputs, Refusal, Seed, Sizes,
    Verified, Witness, R,
};
use std::collections::BTreeMap;

/// A fold of two items with m = 1, n = 2, k = 4 and t = 3, with lent points and all else that a call takes. The circuit has no
/// entries, so every witness has the value 0.
#[derive(Clone)]
pub struct Arguments {
    pub sizes: Sizes,
    pub points: Points,
    pub circuit: Circuit,
    pub r: R,
    pub x: PublicInputs,
    pub witness: Witness,
    pub items: Vec<Item>,
    pub witnesses: Vec<Witness>,
    pub positions: Positions,
    pub folded: Folded,
    pub openings: Vec<Vec<Opening>>,
    pub seed: Seed,
}

impl Arguments {
    pub fn new() -> Result<Arguments, Refusal> {
        let sizes = Sizes { m: 1, n: 2, k: 4 };
        let points: Points = (0..16).map(|i| 3 * i).collect();
        let circuit = Circuit::default();
        let witnesses = vec![Witness::from([1, 2, 3, 4]), Witness::from([5, 6, 7, 8])];
        let (r, x) = (R::from([9]), PublicInputs::from([1, 11]));
        let items = vec![
            cast(sizes, &points, &circuit, &r, &x, &witnesses[0])?,
            cast(sizes, &points, &circuit, &R::from([12]), &PublicInputs::from([1, 14]), &witnesses[1])?,
        ];
        let positions = Positions::from([0, 15, 7]);
        let folded = fold(sizes, Challenge::from(100), &points, &circuit, &items, &witnesses)?;
        let opened = witnesses.iter().chain([&folded.witness]);
        let openings = opened.map(|w| open(sizes, &points, w, &positions)).collect::<Result<_, _>>()?;
        let (witness, seed) = (witnesses[0].clone(), draw_challenge(sizes, &items, &folded.quotient)?.seed);
        Ok(Arguments {
            sizes,
            points,
            circuit,
            r,
            x,
            witness,
            items,
            witnesses,
            positions,
            folded,
            openings,
            seed,
        })
    }

    pub fn encode(&self) -> Result<(), Refusal> {
        encode(self.sizes, &self.points, &self.witness).map(drop)
    }

    pub fn cast(&self) -> Result<(), Refusal> {
        cast(self.sizes, &self.points, &self.circuit, &self.r, &self.x, &self.witness).map(drop)
    }

    pub fn quotient(&self) -> Result<(), Refusal> {
        quotient(self.sizes, &self.points, &self.circuit, &self.items, &self.witnesses).map(drop)
    }

    pub fn fold(&self) -> Result<(), Refusal> {
        let Arguments { sizes, points, circuit, items, witnesses, .. } = self;
        fold(*sizes, Challenge::from(100), points, circuit, items, witnesses).map(drop)
    }

    pub fn open(&self) -> Result<(), Refusal> {
        open(self.sizes, &self.points, &self.witness, &self.positions).map(drop)
    }

    pub fn interleave(&self) -> Result<(), Refusal> {
        interleave(self.sizes, &self.openings).map(drop)
    }

    /// The verdict. Where it accepts, nine openings of nine blocks each are hashed, and where check 2 refuses none.
    pub fn verify(&self) -> Result<(), Refusal> {
        let Arguments { sizes, items, positions, openings, .. } = self;
        let Folded { quotient, item, .. } = &self.folded;
        let Verified { verdict, blocks } =
            verify(*sizes, Challenge::from(100), items, positions, quotient, item, openings);
        assert_eq!(blocks, if verdict.is_ok() { 81 } else { 0 });
        verdict
    }

    pub fn decide(&self) -> Result<(), Refusal> {
        decide(self.sizes, &self.points, &self.circuit, &self.folded.item, &self.folded.witness)
    }

    pub fn draw_challenge(&self) -> Result<(), Refusal> {
        draw_challenge(self.sizes, &self.items, &self.folded.quotient).map(drop)
    }

    /// As many positions as there are.
    pub fn draw_positions(&self) -> Result<(), Refusal> {
        let (l, t, root) = (self.items.len(), self.positions.len(), &self.folded.item.root);
        draw_positions(self.sizes, l, t, Challenge::from(100), &self.seed, root).map(drop)
    }

    pub fn draw_r(&self) -> Result<(), Refusal> {
        draw_r(self.sizes, &self.folded.item.root, &self.x).map(drop)
    }
}

pub type Call = fn(&Arguments) -> Result<(), Refusal>;

/// Every call but `read_sheet`, by its name.
pub const CALLS: &[(&str, Call)] = &[
    ("encode", Arguments::encode),
    ("cast", Arguments::cast),
    ("quotient", Arguments::quotient),
    ("fold", Arguments::fold),
    ("open", Arguments::open),
    ("interleave", Arguments::interleave),
    ("verify", Arguments::verify),
    ("decide", Arguments::decide),
    ("draw_challenge", Arguments::draw_challenge),
    ("draw_positions", Arguments::draw_positions),
    ("draw_r", Arguments::draw_r),
];

/// The calls that look at k.
pub const TAKE_K: &[&str] = &[
    "encode",
    "cast",
    "quotient",
    "fold",
    "open",
    "interleave",
    "verify",
    "decide",
    "draw_challenge",
    "draw_positions",
];

/// The calls that have a buffer whose length k gives: those that look at k, but for two that draw.
pub const WITH_BUFFERS_OF_K: &[&str] =
    &["encode", "cast", "quotient", "fold", "open", "interleave", "verify", "decide"];

/// The calls that look at m and n.
pub const TAKE_M_AND_N: &[&str] =
    &["cast", "quotient", "fold", "verify", "decide", "draw_challenge", "draw_r"];

pub const TAKE_POINTS: &[&str] = &["encode", "cast", "quotient", "fold", "open", "decide"];
pub const TAKE_CIRCUIT: &[&str] = &["cast", "quotient", "fold", "decide"];
pub const TAKE_ITEMS: &[&str] = &["quotient", "fold", "verify", "draw_challenge"];
pub const TAKE_WITNESS: &[&str] = &["encode", "cast", "open"];
pub const TAKE_WITNESSES: &[&str] = &["quotient", "fold"];
pub const TAKE_NEW_ITEM: &[&str] = &["verify", "decide"];
pub const TAKE_OPENINGS: &[&str] = &["interleave", "verify"];
pub const TAKE_POSITIONS: &[&str] = &["open", "verify", "draw_positions"];

/// No call here may ask for more. Where sizes or lists are very long, a buffer for them would be longer.
pub const MOST: usize = 256 * 1024;

/// The answer of a call, which may ask for no long buffer.
pub fn answer(call: impl FnOnce() -> Result<(), Refusal>) -> Result<(), Refusal> {
    let (longest, result) = longest_buffer(call);
    assert!(longest <= MOST, "{longest} bytes in one buffer");
    result
}

/// The calls that are refused after a change, and by which check. All others accept.
pub fn refusals(change: impl Fn(&mut Arguments)) -> BTreeMap<&'static str, Refusal> {
    let mut arguments = Arguments::new().unwrap();
    change(&mut arguments);
    let refusal = |(name, call): &(&'static str, Call)| Some((*name, answer(|| call(&arguments)).err()?));
    CALLS.iter().filter_map(refusal).collect()
}

/// These calls, refused by one check.
pub fn by(refusal: Refusal, calls: &[&'static str]) -> BTreeMap<&'static str, Refusal> {
    calls.iter().map(|name| (*name, refusal)).collect()
}

/// These calls, refused by check 2.
pub fn by_sizes(calls: &[&'static str]) -> BTreeMap<&'static str, Refusal> {
    by(Refusal::Sizes, calls)
}

/// Changes a list of numbers as a vector.
pub fn change<List: Default + From<Vec<u32>>>(list: &mut List, by: impl FnOnce(&mut Vec<u32>))
where
    Vec<u32>: From<List>,
{
    let mut numbers = Vec::from(std::mem::take(list));
    by(&mut numbers);
    *list = numbers.into();
}
