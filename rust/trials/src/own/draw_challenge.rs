//! Drawing a challenge: of any quotient.

use super::{Given, Own};
use crate::{Name, Random};
use lomvuze_reference::element_bytes;

pub struct DrawChallenge;

impl Own for DrawChallenge {
    fn inputs(&self, random: &mut Random, given: &Given, _: Name) -> Vec<Vec<u8>> {
        let quotient = random.elements(given.list.quotient_length() / 4);
        vec![given.list.items.clone(), element_bytes(&quotient)]
    }
}
