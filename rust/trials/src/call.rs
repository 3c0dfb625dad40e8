//! Random calls: numbers, buffers that are read and buffers that are written.

use crate::own::{own, Given};
use crate::{Honest, Library, Name, Part, Random, MOST_BUFFERS};
use lomvuze_calls::layout::{ItemLayout, OpeningLayout, NUMBER_BYTES};

/// A call with its arguments: the numbers first, then the buffers it reads, then those it writes.
#[derive(Clone, PartialEq, Debug)]
pub struct Call {
    pub name: Name,
    pub numbers: Vec<u32>,
    pub inputs: Vec<Vec<u8>>,
    pub outputs: Vec<Vec<u8>>,
}

impl Call {
    /// Runs the call and gives its answer.
    pub fn run(&mut self, by: &Library) -> u64 {
        // On the stack: the benchmark measures this too.
        let mut inputs = [&[][..]; MOST_BUFFERS];
        let mut outputs: [&mut [u8]; MOST_BUFFERS] = std::array::from_fn(|_| &mut [][..]);
        inputs.iter_mut().zip(&self.inputs).for_each(|(place, input)| *place = input);
        outputs.iter_mut().zip(&mut self.outputs).for_each(|(place, output)| *place = output);
        let count = self.name.outputs().len();
        (by.call)(self.name, &self.numbers, &inputs[..self.name.inputs().len()], &mut outputs[..count])
    }

    /// A call that is accepted, mostly of small sizes.
    pub fn honest(random: &mut Random, name: Name) -> Call {
        let list = Honest::of_small_size(random);
        let t = 1 + random.below(8.min(4 * list.k as usize));
        Call::over(random, name, list, t)
    }

    /// A call that is accepted, for an honest list and with t positions. Its output buffers hold random bytes.
    pub fn over(random: &mut Random, name: Name, list: Honest, t: usize) -> Call {
        let given = Given::new(random, list, t);
        let numbers = name.numbers().iter().map(|name| given.number(name)).collect();
        let inputs = own(name).inputs(random, &given, name);
        let mut call = Call { name, numbers, inputs, outputs: vec![] };
        call.outputs = name.outputs().iter().map(|part| random.bytes(call.length(*part).unwrap())).collect();
        call
    }

    /// Where a number stands.
    pub fn place_of(&self, number: &str) -> Option<usize> {
        self.name.numbers().iter().position(|name| *name == number)
    }

    /// A number by its name; 1 if the call does not take it.
    pub fn number(&self, name: &str) -> usize {
        self.place_of(name).map_or(1, |i| self.numbers[i] as usize)
    }

    pub fn set(&mut self, name: &str, number: u32) {
        let i = self.place_of(name).unwrap_or_else(|| panic!("{:?} does not take {name}", self.name));
        self.numbers[i] = number;
    }

    pub fn item_layout(&self) -> ItemLayout {
        ItemLayout { m: self.number("m") as u32, n: self.number("n") as u32 }
    }

    pub fn opening_layout(&self) -> OpeningLayout {
        OpeningLayout { k: self.number("k") as u32 }
    }

    /// Where the first input that holds a part stands.
    pub fn input_of(&self, part: Part) -> Option<usize> {
        self.name.inputs().iter().position(|of| *of == part)
    }

    /// The length that the numbers give a buffer, permitted ones or not; points that are lent. A list of entries
    /// has any.
    pub fn length(&self, part: Part) -> Option<usize> {
        part.length().bytes(&|name| self.number(name) as u32)
    }

    /// Where input i has elements, for lengths that fit.
    pub fn elements_of(&self, i: usize) -> Vec<usize> {
        let length = self.inputs[i].len();
        let item = self.item_layout();
        let item_numbers = || [item.e(), item.r(), item.x()].into_iter().flatten().step_by(NUMBER_BYTES);
        match self.name.inputs()[i] {
            Part::Entries => (8..length).step_by(12).collect(),
            Part::OneItem | Part::Items => (0..length)
                .step_by(item.bytes())
                .flat_map(|at| item_numbers().map(move |number| at + number))
                .collect(),
            Part::OpeningsByPosition => (0..length)
                .step_by(self.opening_layout().bytes())
                .map(|at| at + self.opening_layout().value().start)
                .collect(),
            Part::R | Part::X | Part::Witness | Part::Witnesses | Part::Codeword | Part::Quotient => {
                (0..length).step_by(NUMBER_BYTES).collect()
            }
            // Points are check 12's, positions 6's, and openings that are put in order are any bytes.
            Part::Points | Part::Positions | Part::Openings | Part::OpeningsByWitness => vec![],
            Part::Digest | Part::Seed | Part::DrawnChallenge => vec![],
            Part::Sheet | Part::SheetEntries | Part::SheetItems | Part::SheetWitnesses => vec![],
            Part::SheetSizes => vec![],
        }
    }

    /// Where input i has first inputs, for lengths that fit.
    pub fn first_inputs_of(&self, i: usize) -> Vec<usize> {
        let item = self.item_layout();
        match self.name.inputs()[i] {
            Part::X => vec![0],
            Part::OneItem | Part::Items => {
                (item.first_input().start..self.inputs[i].len()).step_by(item.bytes()).collect()
            }
            _ => vec![],
        }
    }
}
