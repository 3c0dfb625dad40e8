//! Damage to first inputs.

use crate::{put, Call, Part, Random};
use lomvuze_reference::field::P;

/// An element other than 1: the ones beside it, the greatest, or any.
fn not_one(random: &mut Random) -> u32 {
    let any = random.element().number();
    [0, 2, P - 1, if any == 1 { 3 } else { any }][random.below(4)]
}

impl Call {
    /// A first input other than 1, of the items that check 13 tests: the first of them, the last, any or all. Casting
    /// has it in x.
    pub(super) fn fail_first_inputs(&mut self, random: &mut Random) {
        let tested = [Part::X, Part::Items, Part::OneItem];
        let i = tested.into_iter().find_map(|part| self.input_of(part)).unwrap();
        let places = self.first_inputs_of(i);
        let one = random.below(places.len());
        let chosen = match random.below(4) {
            0 => &places[..1],
            1 => &places[places.len() - 1..],
            2 => &places[one..=one],
            _ => &places[..],
        };
        for at in chosen {
            put(&mut self.inputs[i], *at, not_one(random));
        }
    }

    /// Puts any number in the place of a first input, the new item's too. False where there is none.
    pub(super) fn change_first_input(&mut self, random: &mut Random) -> bool {
        let places: Vec<(usize, usize)> = (0..self.inputs.len())
            .flat_map(|i| self.first_inputs_of(i).into_iter().map(move |at| (i, at)))
            .filter(|(i, at)| at + 4 <= self.inputs[*i].len())
            .collect();
        let Some((i, at)) = places.get(random.below(places.len().max(1))) else { return false };
        put(&mut self.inputs[*i], *at, random.number());
        true
    }
}
