//! Damage to openings, which check 8 refuses.

use crate::{number_at, put, Call, Part, Random};
use lomvuze_calls::layout::DIGEST_BYTES;

impl Call {
    /// An opening that does not lead to its root, at a random place; two of them; another root, so that every opening
    /// of an item fails; or another position, so that every opening there does.
    pub(super) fn fail_openings(&mut self, random: &mut Random) {
        let (one, count) = (random.below(self.openings()), self.openings());
        match random.below(6) {
            0 => self.change_root(random),
            1 => self.change_position(random),
            2 => {
                let other = (one + 1 + random.below(count - 1)) % count;
                self.change_opening(random, one);
                self.change_opening(random, other);
            }
            _ => self.change_opening(random, one),
        }
    }

    /// Changes opening j: its value, or a bit of its first sibling, of its last one, or of any.
    fn change_opening(&mut self, random: &mut Random, j: usize) {
        let (openings, layout) = (self.input_of(Part::OpeningsByPosition).unwrap(), self.opening_layout());
        let (start, siblings) = (j * layout.bytes(), layout.siblings());
        let at = match random.below(4) {
            0 => return self.change_element_at(random, openings, start + layout.value().start),
            1 => siblings.start + random.below(DIGEST_BYTES),
            2 => siblings.end - DIGEST_BYTES + random.below(DIGEST_BYTES),
            _ => siblings.start + random.below(siblings.len()),
        };
        self.inputs[openings][start + at] ^= 1 << random.below(8);
    }

    /// Puts another position below 4k in the place of one.
    fn change_position(&mut self, random: &mut Random) {
        let (at, count) = (4 * random.below(self.number("t")), 4 * self.number("k"));
        let positions = self.first(Part::Positions);
        let position = number_at(positions, at) as usize + 1 + random.below(count - 1);
        put(positions, at, (position % count) as u32);
    }

    /// What opening j is tested by: its bytes, its position and the root that it has to lead to.
    fn shown(&self, j: usize) -> (&[u8], u32, &[u8]) {
        let (l, item, opening) = (self.number("l"), self.item_layout(), self.opening_layout().bytes());
        let input = |part| &self.inputs[self.input_of(part).unwrap()];
        let (q, i) = (j / (l + 1), j % (l + 1));
        let of = if i < l { &input(Part::Items)[i * item.bytes()..] } else { &input(Part::OneItem)[..] };
        let openings = &input(Part::OpeningsByPosition)[j * opening..];
        (&openings[..opening], number_at(input(Part::Positions), 4 * q), &of[item.root()])
    }

    /// The first opening that is tested by other bytes in another call, of the same sizes.
    pub(super) fn first_other_opening(&self, other: &Call) -> Option<usize> {
        (0..self.openings()).find(|j| self.shown(*j) != other.shown(*j))
    }
}
