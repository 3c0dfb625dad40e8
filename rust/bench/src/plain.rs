//! What the proved library is measured beside where `lomvuze_reference` is not the one to compare with: the algorithms of the
//! proved library as a Rust programmer would write them for their speed. The head of each module says why it is not the
//! reference. SHA-256, the root of a tree, `interleave` and `verify` are the reference's.

pub mod calls;
mod checks;
mod claims;
pub mod code;
mod draws;
pub mod field;
pub mod points;
pub mod running;
mod scan;
pub mod sheet;
pub mod tree;
