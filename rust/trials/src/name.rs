//! What the description says of a call and of a part.

use crate::{Name, Part};
use lomvuze_calls::description::{Call, Description, Length};
use lomvuze_calls::CALLS;
use std::sync::OnceLock;

/// The description of the calls.
pub fn description() -> &'static Description<'static> {
    static READ: OnceLock<Description> = OnceLock::new();
    READ.get_or_init(|| Description::read(CALLS).unwrap_or_else(|why| panic!("calls.txt, {why}")))
}

impl Name {
    pub fn description(self) -> &'static Call<'static> {
        &description().calls[self as usize]
    }

    /// The name of the exported call behind `lomvuze_`.
    pub fn exported(self) -> &'static str {
        self.description().name
    }

    /// The checks that the call runs, in order.
    pub fn checks(self) -> &'static [u32] {
        &self.description().checks
    }

    pub fn runs(self, check: u32) -> bool {
        self.checks().contains(&check)
    }

    /// The numbers that the call takes.
    pub fn numbers(self) -> &'static [&'static str] {
        &self.description().numbers
    }

    /// Whether a buffer that the call reads has this name.
    pub fn reads(self, buffer: &str) -> bool {
        self.description().inputs.iter().any(|input| input.name == buffer)
    }

    /// Whether the call is lent points.
    pub fn takes_points(self) -> bool {
        self.inputs().contains(&Part::Points)
    }

    /// The parts of the buffers that the call reads, and then of those that it writes.
    pub fn parts(self) -> Vec<Part> {
        [self.inputs(), self.outputs()].concat()
    }

    /// The numbers that have limits of check 2: all but the challenge.
    pub fn sizes(self) -> Vec<&'static str> {
        self.numbers().iter().copied().filter(|name| *name != "challenge").collect()
    }
}

impl Part {
    pub fn length(self) -> &'static Length<'static> {
        &description().parts[self as usize].length
    }
}
