//! Casting: it is lent a circuit whose rows all hold, and check 11 is about them.

use super::{Given, Own};
use crate::instance::instance;
use crate::{number_at, put, Call, Name, Part, Random};
use lomvuze_reference::field::P;

pub struct Cast;

impl Own for Cast {
    fn inputs(&self, random: &mut Random, given: &Given, _: Name) -> Vec<Vec<u8>> {
        [vec![given.list.points.clone()], instance(random, &given.list)].concat()
    }

    /// The weights of all rows have the sum 1, and x_0 is 1.
    fn fail(&self, call: &mut Call, _: &mut Random, check: u32) -> bool {
        if check != 11 {
            return false;
        }
        let c = call.input_of(Part::Entries).unwrap() + 2;
        for entry in call.inputs[c].chunks_mut(12).filter(|entry| number_at(entry, 4) == 0) {
            put(entry, 8, (number_at(entry, 8) + 1) % P);
        }
        true
    }
}
