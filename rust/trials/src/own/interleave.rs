//! Putting openings in the verifier's order: any bytes of the right length are openings.

use super::{Given, Own};
use crate::{Name, Random};

pub struct Interleave;

impl Own for Interleave {
    fn inputs(&self, random: &mut Random, given: &Given, _: Name) -> Vec<Vec<u8>> {
        let count = given.positions.len() * (given.list.l as usize + 1);
        vec![random.bytes(count * given.list.opening_length())]
    }
}
