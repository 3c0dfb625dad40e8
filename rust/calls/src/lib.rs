//! The calls of Lomvuze as one description, `calls.txt`: names, numbers, buffers with their lengths, checks; a reader of it
//! ([`description`]); and where the parts of an item and of an opening lie ([`layout`]).

#![no_std]

extern crate alloc;

pub mod description;
mod formula;
pub mod layout;
mod lines;

pub use description::Description;

/// The description of the calls. Its first lines say how it is written.
pub const CALLS: &str = include_str!("../calls.txt");
