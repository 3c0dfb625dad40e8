//! What is particular to one call: how it is lent an honest input that no other call takes, and what makes the checks fail
//! that it alone runs. A call whose buffers say enough by what they hold has no file here.

mod cast;
mod draw_challenge;
mod draw_positions;
mod interleave;
mod read_sheet;
mod verify;

use crate::{bytes, Call, Honest, Name, Part, Random};
use lomvuze_reference::field::P;

/// What is particular to a call. What is given here holds for all the others.
pub trait Own {
    /// The buffers that an accepted call reads.
    fn inputs(&self, _random: &mut Random, given: &Given, name: Name) -> Vec<Vec<u8>> {
        given.inputs(name)
    }

    /// Makes a check fail and none before it, in a call that passes that check and those before it. False where the
    /// buffers say by what they hold how it fails.
    fn fail(&self, _call: &mut Call, _random: &mut Random, _check: u32) -> bool {
        false
    }

    /// At times, a random change that this call alone knows. False where there was none.
    fn damage(&self, _call: &mut Call, _random: &mut Random) -> bool {
        false
    }

    /// The answer where the call is accepted.
    fn accepted(&self, _call: &Call) -> u64 {
        0
    }

    /// Whether the call may answer this.
    fn permits(&self, _call: &Call, answer: u64) -> bool {
        crate::answer::blocks(answer) == 0
    }

    /// The answer of a call in which a check fails that the call before the change passed.
    fn refusal(&self, _passing: &Call, _call: &Call, check: u32) -> u64 {
        check.into()
    }
}

/// The calls that have something of their own.
pub fn own(name: Name) -> &'static dyn Own {
    match name {
        Name::Cast => &cast::Cast,
        Name::Interleave => &interleave::Interleave,
        Name::Verify => &verify::Verify,
        Name::DrawChallenge => &draw_challenge::DrawChallenge,
        Name::DrawPositions => &draw_positions::DrawPositions,
        Name::ReadSheet => &read_sheet::ReadSheet,
        _ => &Nothing,
    }
}

struct Nothing;
impl Own for Nothing {}

/// What calls are lent: an honest list, and a challenge and positions for it.
pub struct Given {
    pub list: Honest,
    pub challenge: u32,
    pub positions: Vec<u32>,
}

impl Given {
    pub fn new(random: &mut Random, list: Honest, t: usize) -> Given {
        let challenge = challenge(random, list.l);
        let positions = (0..t).map(|_| random.below(4 * list.k as usize) as u32).collect();
        Given { list, challenge, positions }
    }

    pub fn number(&self, name: &str) -> u32 {
        let Honest { m, n, k, l, .. } = self.list;
        match name {
            "m" => m,
            "n" => n,
            "k" => k,
            "l" => l,
            "t" => self.positions.len() as u32,
            "challenge" => self.challenge,
            _ => panic!("no number is named {name}: `Given::number` is to know it"),
        }
    }

    /// The buffers that a call reads, by what they hold. Of items and witnesses, one is the first.
    pub fn inputs(&self, name: Name) -> Vec<Vec<u8>> {
        let list = &self.list;
        let (layout, mut matrices) = (list.item_layout(), [&list.a, &list.b, &list.c].into_iter());
        let buffer = |part: &Part| match part {
            Part::Points => list.points.clone(),
            Part::Entries => matrices.next().expect("three lists").clone(),
            Part::Items => list.items.clone(),
            Part::OneItem => list.items[..layout.bytes()].to_vec(),
            Part::R => list.items[layout.r()].to_vec(),
            Part::X => list.items[layout.x()].to_vec(),
            Part::Digest => list.items[layout.root()].to_vec(),
            Part::Witnesses => list.witnesses.clone(),
            Part::Witness => list.witnesses[..list.witness_length()].to_vec(),
            Part::Positions => bytes(&self.positions),
            _ => panic!("{name:?} reads {part:?}: it needs a file of its own in rust/trials/src/own"),
        };
        name.inputs().iter().map(buffer).collect()
    }
}

/// A challenge for l items: the least, the greatest, or any.
fn challenge(random: &mut Random, l: u32) -> u32 {
    match random.below(4) {
        0 => l,
        1 => P - 1,
        _ => l + random.below((P - l) as usize) as u32,
    }
}
