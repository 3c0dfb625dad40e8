//! Verifying: its answer counts blocks, it is lent a fold that is worked out, and checks 7 to 9 are its own.

mod another_witness;
mod openings;

use super::{Given, Own};
use crate::answer::{after, verify_permits};
use crate::{bytes, Call, Chain, Name, Part, Random, REFERENCE};

pub struct Verify;

impl Own for Verify {
    fn inputs(&self, _: &mut Random, given: &Given, _: Name) -> Vec<Vec<u8>> {
        let chain = Chain::new(&REFERENCE, &given.list, given.challenge, &given.positions);
        let positions = bytes(&given.positions);
        vec![given.list.items.clone(), positions, chain.quotient, chain.new_item, chain.openings]
    }

    fn fail(&self, call: &mut Call, random: &mut Random, check: u32) -> bool {
        match check {
            7 => call.fail_new_item(random),
            8 => call.fail_openings(random),
            9 => call.show_another_witness(random),
            _ => return false,
        }
        true
    }

    fn damage(&self, call: &mut Call, random: &mut Random) -> bool {
        let shows = random.below(6) == 0;
        if shows {
            call.show_another_witness(random);
        }
        shows
    }

    fn accepted(&self, call: &Call) -> u64 {
        after(call.openings(), call.number("k") as u32, 0)
    }

    fn permits(&self, call: &Call, answer: u64) -> bool {
        let [k, l, t] = ["k", "l", "t"].map(|name| call.number(name) as u32);
        verify_permits(k, l, t, answer)
    }

    /// Check 8 refuses the first opening that the change is about, and 9 when all are hashed.
    fn refusal(&self, passing: &Call, call: &Call, check: u32) -> u64 {
        let openings = match check {
            8 => 1 + passing.first_other_opening(call).expect("a changed opening"),
            9 => call.openings(),
            _ => return check.into(),
        };
        after(openings, call.number("k") as u32, check)
    }
}

impl Call {
    /// Another element, of the quotient or of an item: at a permitted challenge every one of them counts. Not a first
    /// input that check 13 tests; the new item's is among them.
    fn fail_new_item(&mut self, random: &mut Random) {
        let items = self.input_of(Part::Items).unwrap();
        let tested = self.first_inputs_of(items);
        loop {
            let (i, at) = self.element(random, |part| part != Part::OpeningsByPosition);
            if i != items || !tested.contains(&at) {
                return self.change_element_at(random, i, at);
            }
        }
    }
}
