//! `calls.txt`, read.
//!
//! ```
//! let calls = lomvuze_calls::Description::read(lomvuze_calls::CALLS).unwrap();
//! let encode = calls.call("encode").unwrap();
//! assert_eq!((&encode.numbers[..], &encode.checks[..]), (&["k"][..], &[2, 3, 12][..]));
//! let codeword = calls.part(encode.outputs[0].part).unwrap();
//! assert_eq!(codeword.length.bytes(&|_| 64), Some(1024));
//! ```

pub use crate::formula::Formula;
use alloc::format;
use alloc::string::{String, ToString};
use alloc::vec::Vec;
use core::fmt;
use core::ops::Range;

/// The calls, in order, and what their lines are about.
#[derive(Clone, PartialEq, Default, Debug)]
pub struct Description<'a> {
    pub numbers: Vec<Number<'a>>,
    pub layouts: Vec<Layout<'a>>,
    pub parts: Vec<Part<'a>>,
    pub calls: Vec<Call<'a>>,
}

/// A number that calls take, and its limits.
#[derive(Clone, PartialEq, Debug)]
pub struct Number<'a> {
    pub name: &'a str,
    pub least: Formula<'a>,
    pub greatest: Formula<'a>,
    /// Whether powers of two alone are permitted.
    pub powers_of_two: bool,
}

/// A record: its fields, one behind the other, and the bytes of each.
#[derive(Clone, PartialEq, Debug)]
pub struct Layout<'a> {
    pub name: &'a str,
    pub fields: Vec<(&'a str, Formula<'a>)>,
}

/// What a buffer holds.
#[derive(Clone, PartialEq, Debug)]
pub struct Part<'a> {
    pub name: &'a str,
    pub length: Length<'a>,
}

/// The length of a buffer.
#[derive(Clone, PartialEq, Debug)]
pub enum Length<'a> {
    /// So many bytes.
    Bytes(Formula<'a>),
    /// None, or so many bytes.
    NoneOr(Formula<'a>),
    /// Up to so many records of so many bytes each: no number of the call gives how many.
    UpTo(Formula<'a>, Formula<'a>),
    /// An array of so many numbers, which is passed without a length.
    Numbers(Formula<'a>),
}

/// A call, without `lomvuze_` before its name.
#[derive(Clone, PartialEq, Debug)]
pub struct Call<'a> {
    pub name: &'a str,
    /// The width of the answer: 32 or 64.
    pub bits: u32,
    pub about: &'a str,
    pub numbers: Vec<&'a str>,
    pub inputs: Vec<Buffer<'a>>,
    pub outputs: Vec<Buffer<'a>>,
    /// In order.
    pub checks: Vec<u32>,
}

/// A buffer of a call: its name, and that of the part that it holds.
#[derive(Clone, Copy, PartialEq, Debug)]
pub struct Buffer<'a> {
    pub name: &'a str,
    pub part: &'a str,
}

/// A line that is not written as the first lines of `calls.txt` say.
#[derive(Clone, PartialEq, Debug)]
pub struct Error {
    /// Counted from 1.
    pub line: usize,
    pub what: String,
}

impl fmt::Display for Error {
    fn fmt(&self, out: &mut fmt::Formatter) -> fmt::Result {
        write!(out, "line {}: {}", self.line, self.what)
    }
}

impl core::error::Error for Error {}

impl<'a> Description<'a> {
    pub fn call(&self, name: &str) -> Option<&Call<'a>> {
        self.calls.iter().find(|call| call.name == name)
    }

    pub fn part(&self, name: &str) -> Option<&Part<'a>> {
        self.parts.iter().find(|part| part.name == name)
    }

    pub fn layout(&self, name: &str) -> Option<&Layout<'a>> {
        self.layouts.iter().find(|layout| layout.name == name)
    }

    pub fn number(&self, name: &str) -> Option<&Number<'a>> {
        self.numbers.iter().find(|number| number.name == name)
    }
}

impl Call<'_> {
    /// A sentence that has the checks: `Checks 2, 3 and 12.`
    pub fn checks_in_words(&self) -> String {
        let numbers: Vec<String> = self.checks.iter().map(u32::to_string).collect();
        match &numbers[..] {
            [before @ .., last] if !before.is_empty() => {
                format!("Checks {} and {last}.", before.join(", "))
            }
            _ => format!("Check {}.", numbers.concat()),
        }
    }
}

impl Number<'_> {
    /// The limits where the other numbers of the call are these.
    pub fn limits(&self, number: &dyn Fn(&str) -> u32) -> (u32, u32) {
        let limit = |formula: &Formula| formula.value(number).min(u32::MAX.into()) as u32;
        (limit(&self.least), limit(&self.greatest))
    }
}

impl Layout<'_> {
    /// Where a field lies, for these numbers.
    pub fn place(&self, field: &str, number: &dyn Fn(&str) -> u32) -> Option<Range<usize>> {
        let mut start = 0;
        for (name, bytes) in &self.fields {
            let end = start + bytes.value(number) as usize;
            if *name == field {
                return Some(start..end);
            }
            start = end;
        }
        None
    }
}

impl Length<'_> {
    /// The bytes that the numbers give the buffer, permitted ones or not; those of a buffer that is not empty, where it may
    /// be. None where they give none.
    pub fn bytes(&self, number: &dyn Fn(&str) -> u32) -> Option<usize> {
        let value = |formula: &Formula| usize::try_from(formula.value(number)).unwrap_or(usize::MAX);
        match self {
            Length::Bytes(bytes) | Length::NoneOr(bytes) => Some(value(bytes)),
            Length::UpTo(..) => None,
            Length::Numbers(count) => Some(value(count).saturating_mul(crate::layout::NUMBER_BYTES)),
        }
    }

    /// Whether a number of the call gives the length, alone or with others.
    pub fn depends_on(&self, number: &str) -> bool {
        match self {
            Length::Bytes(bytes) | Length::NoneOr(bytes) => bytes.numbers().contains(&number),
            Length::UpTo(..) | Length::Numbers(_) => false,
        }
    }

    /// Whether the buffer is passed with its length.
    pub fn is_passed(&self) -> bool {
        !matches!(self, Length::Numbers(_))
    }
}
