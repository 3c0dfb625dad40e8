//! Damage to sizes and lengths.

use crate::name::description;
use crate::{Call, Part, Random};

impl Call {
    /// A size that is not permitted, with buffers that fit it; a size that does not fit the buffers; or a
    /// buffer of another length.
    pub(super) fn fail_sizes(&mut self, random: &mut Random) {
        let sizes = self.name.sizes();
        let size = sizes[random.below(sizes.len())];
        match random.below(5) {
            0 => {
                let not_permitted = self.not_permitted(size);
                self.set(size, not_permitted[random.below(not_permitted.len())]);
                self.fit();
            }
            1 => {
                let [fewer, more] = self.unfit(size);
                self.set(size, [fewer, more, u32::MAX, 1 << 31][random.below(4)]);
            }
            2 if self.name.takes_points() => self.fail_points_length(random),
            _ => self.fail_length(random),
        }
    }

    /// A buffer of another length, or a list of entries that is too long.
    fn fail_length(&mut self, random: &mut Random) {
        let parts = self.name.parts();
        let i = random.below(parts.len());
        let buffer = self.inputs.iter_mut().chain(&mut self.outputs).nth(i).unwrap();
        let length = buffer.len();
        if parts[i] == Part::Entries && random.below(2) == 0 {
            buffer.resize(12 * 1025, 0);
        } else if length > 0 && random.below(2) == 0 {
            buffer.truncate(length - 1);
        } else {
            buffer.resize(length + [1, 3, 11][random.below(3)], 0);
        }
    }

    /// The least and the greatest that is permitted of a number, beside the other numbers of the call.
    pub fn limits(&self, number: &str) -> (u32, u32) {
        description().number(number).unwrap().limits(&|name| self.number(name) as u32)
    }

    /// Numbers beside the limits of one, and for a power of two others that are none.
    pub fn not_permitted(&self, number: &str) -> Vec<u32> {
        let (least, greatest) = self.limits(number);
        match (least, description().number(number).unwrap().powers_of_two) {
            (_, true) => {
                vec![0, least - 1, least + 1, 2 * least + 1, greatest - 1, greatest + 1, 2 * greatest]
            }
            (0, _) => vec![greatest + 1, greatest + 2],
            _ => vec![least - 1, greatest + 1],
        }
    }

    /// Two sizes that do not fit the buffers, in the place of one. Where no length depends on it, such as l in drawing
    /// positions, they are not permitted.
    fn unfit(&self, size: &str) -> [u32; 2] {
        let depends = self.name.parts().iter().any(|part| part.length().depends_on(size));
        let number = self.number(size) as u32;
        match (depends, &self.not_permitted(size)[..]) {
            (false, [less, more]) => [*less, *more],
            _ => [number.wrapping_sub(1), number + 1],
        }
    }

    /// Gives all buffers the lengths that the numbers give. Where no points are lent, none are after it.
    pub fn fit(&mut self) {
        for (i, part) in self.name.inputs().iter().enumerate() {
            if *part == Part::Points && self.inputs[i].is_empty() {
                continue;
            }
            let length = self.length(*part).unwrap_or(self.inputs[i].len());
            self.inputs[i].resize(length, 0);
        }
        for (i, part) in self.name.outputs().iter().enumerate() {
            let length = self.length(*part).unwrap();
            self.outputs[i].resize(length, 0);
        }
    }
}
