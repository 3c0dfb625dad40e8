//! Damage to calls: random changes, and changes that make one chosen check fail.

mod first_input;
mod points;
mod sizes;

use crate::own::own;
use crate::{number_at, put, Call, Part, Random};
use lomvuze_calls::layout::DIGEST_BYTES;
use lomvuze_reference::field::P;

impl Call {
    /// A random change of one argument.
    pub fn damage(&mut self, random: &mut Random) {
        if self.damage_of_its_own(random) {
            return;
        }
        let number = [0, 1, P - 1, P, u32::MAX, random.below(300) as u32, random.number()][random.below(7)];
        match random.below(9) {
            0 => self.change_number(random, number),
            // An item has the same length for m + 1 and n - 1.
            1 if self.place_of("m").is_some() => {
                let by = [1, u32::MAX][random.below(2)];
                self.set("m", (self.number("m") as u32).wrapping_add(by));
                self.set("n", (self.number("n") as u32).wrapping_sub(by));
            }
            2 => {
                let buffer = self.buffer(random);
                let length = [buffer.len() + 1, buffer.len() + 4, buffer.len() + 12, 0];
                let shorter = buffer.len().saturating_sub(1 + random.below(4));
                buffer.resize(*length.get(random.below(5)).unwrap_or(&shorter), 0);
            }
            3 => {
                let input = self.input(random);
                if !input.is_empty() {
                    let i = random.below(input.len());
                    input[i] ^= 1 << random.below(8);
                }
            }
            _ => {
                let input = self.input(random);
                if input.len() >= 4 {
                    let at = 4 * random.below(input.len() / 4);
                    put(input, at, number);
                }
            }
        }
    }

    /// Another number that the call takes: this one, or one beside it.
    fn change_number(&mut self, random: &mut Random, number: u32) {
        let i = random.below(self.numbers.len());
        self.numbers[i] = match random.below(3) {
            0 => number,
            1 => self.numbers[i].wrapping_add(1),
            _ => self.numbers[i].wrapping_sub(1),
        };
    }

    /// At times, a change that only some calls know: one of its own, other points, or another first input.
    fn damage_of_its_own(&mut self, random: &mut Random) -> bool {
        if own(self.name).damage(self, random) {
            return true;
        }
        if self.name.takes_points() && random.below(8) == 0 {
            self.lend_others(random);
            return true;
        }
        random.below(12) == 0 && self.change_first_input(random)
    }

    /// Makes one of the call's checks fail and none before it, in a call that passes that check and those
    /// before it.
    pub fn fail(&mut self, random: &mut Random, check: u32) {
        if own(self.name).fail(self, random, check) {
            return;
        }
        match check {
            2 => self.fail_sizes(random),
            3 => {
                let (i, at) = self.element(random, |_| true);
                let number = [P, P + 1, u32::MAX, P + random.below((u32::MAX - P) as usize) as u32];
                put(&mut self.inputs[i], at, number[random.below(4)]);
            }
            12 => self.fail_points(random),
            4 => self.fail_order(random),
            13 => self.fail_first_inputs(random),
            5 => {
                let challenge = [0, self.number("l") as u32 - 1, P, P + 1, u32::MAX][random.below(5)];
                self.set("challenge", challenge);
            }
            6 => {
                let position = [4 * self.number("k") as u32, u32::MAX][random.below(2)];
                let at = 4 * random.below(self.number("t"));
                put(self.first(Part::Positions), at, position);
            }
            10 => match random.below(2) {
                0 => self.change_root(random),
                _ => self.change_element(random, |part| matches!(part, Part::Witness | Part::Witnesses)),
            },
            11 => self.fail_claims(random),
            _ => panic!("how check {check} of {:?} fails is to stand in rust/trials/src/own", self.name),
        }
    }

    /// An item with another e.
    fn fail_claims(&mut self, random: &mut Random) {
        let layout = self.item_layout();
        let part = if self.input_of(Part::Items).is_some() { Part::Items } else { Part::OneItem };
        let items = self.first(part);
        let at = random.below(items.len() / layout.bytes()) * layout.bytes() + layout.e().start;
        let e = number_at(items, at);
        put(items, at, (e + 1) % P);
    }

    /// An entry outside rows or columns, or one that does not lie behind the one before.
    fn fail_order(&mut self, random: &mut Random) {
        let (rows, columns) = (1 << self.number("m"), (self.number("n") + self.number("k")) as u32);
        let a = self.input_of(Part::Entries).unwrap();
        let list = &mut self.inputs[a + random.below(3)];
        if list.is_empty() {
            list.resize(12, 0);
        }
        let i = random.below(list.len() / 12);
        let (before, entry) = (12 * i.saturating_sub(1), 12 * i);
        match random.below(6) {
            0 => put(list, entry, rows),
            1 => put(list, entry, u32::MAX),
            2 => put(list, entry + 4, columns),
            3 => put(list, entry + 4, u32::MAX),
            4 if i > 0 => list.copy_within(before..before + 8, entry),
            5 if i > 0 => {
                let place = list[before..before + 8].to_vec();
                list.copy_within(entry..entry + 8, before);
                list[entry..entry + 8].copy_from_slice(&place);
            }
            _ => put(list, entry, rows),
        }
    }

    /// A random element among the inputs that hold certain parts: its input and its place there.
    pub(crate) fn element(&self, random: &mut Random, of: impl Fn(Part) -> bool) -> (usize, usize) {
        let inputs: Vec<usize> = (0..self.inputs.len())
            .filter(|i| of(self.name.inputs()[*i]) && !self.elements_of(*i).is_empty())
            .collect();
        let i = inputs[random.below(inputs.len())];
        let places = self.elements_of(i);
        (i, places[random.below(places.len())])
    }

    /// Puts another element in the place of one.
    fn change_element(&mut self, random: &mut Random, of: impl Fn(Part) -> bool) {
        let (i, at) = self.element(random, of);
        self.change_element_at(random, i, at);
    }

    /// Puts another element at a place of input i.
    pub(crate) fn change_element_at(&mut self, random: &mut Random, i: usize, at: usize) {
        let by = [1, P - 1, 1 + random.below((P - 1) as usize) as u32][random.below(3)];
        let other = (number_at(&self.inputs[i], at) as u64 + by as u64) % P as u64;
        put(&mut self.inputs[i], at, other as u32);
    }

    /// Flips a bit of an item's root.
    pub(crate) fn change_root(&mut self, random: &mut Random) {
        let (i, at) = self.element(random, |part| matches!(part, Part::OneItem | Part::Items));
        let layout = self.item_layout();
        let last = at / layout.bytes() * layout.bytes() + layout.root().end - 1;
        self.inputs[i][last - random.below(DIGEST_BYTES)] ^= 1 << random.below(8);
    }

    /// The first input that holds a part.
    pub(crate) fn first(&mut self, part: Part) -> &mut Vec<u8> {
        let i = self.input_of(part).unwrap();
        &mut self.inputs[i]
    }

    fn input(&mut self, random: &mut Random) -> &mut Vec<u8> {
        let i = random.below(self.inputs.len());
        &mut self.inputs[i]
    }

    fn buffer(&mut self, random: &mut Random) -> &mut Vec<u8> {
        let i = random.below(self.inputs.len() + self.outputs.len());
        self.inputs.iter_mut().chain(&mut self.outputs).nth(i).unwrap()
    }
}
