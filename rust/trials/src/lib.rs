//! Trials of an implementation of the calls: seeded random inputs, honest and damaged, by which two implementations are
//! compared, and the edges of the checks, at which each is tested.
//!
//! What holds for all calls comes from their description (`lomvuze-calls`): names, numbers, buffers and checks, honest
//! buffers by what they hold, and damage by the checks. What is particular to one call stands in its file of [`own`].

use library::{array_bytes, put_array};

include!(concat!(env!("OUT_DIR"), "/generated.rs"));

pub mod answer;
pub mod call;
pub mod chain;
pub mod comparison;
mod damage;
pub mod edges;
pub mod honest;
mod instance;
pub mod library;
pub mod name;
pub mod own;
pub mod points;
pub mod random;
pub mod sheet;

pub use call::Call;
pub use chain::Chain;
pub use comparison::Comparison;
pub use honest::Honest;
pub use library::{Library, REFERENCE};
pub use lomvuze_calls::layout;
pub use random::Random;

/// Numbers in four bytes each, lowest first.
pub fn bytes(numbers: &[u32]) -> Vec<u8> {
    numbers.iter().flat_map(|number| number.to_le_bytes()).collect()
}

/// The number that starts at a place of a buffer.
pub fn number_at(buffer: &[u8], at: usize) -> u32 {
    u32::from_le_bytes(buffer[at..at + 4].try_into().unwrap())
}

/// Writes a number at a place of a buffer.
pub fn put(buffer: &mut [u8], at: usize, number: u32) {
    buffer[at..at + 4].copy_from_slice(&number.to_le_bytes());
}
