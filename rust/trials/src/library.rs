//! The calls of one implementation, so that two can run the same call.

use crate::Name;
use lomvuze_reference::calls;

/// Runs the call of a name with its numbers, the buffers that it reads and those that it writes, and gives its answer. An
/// array that is passed without a length is a buffer too, of numbers in the machine's order.
pub type Run = fn(Name, &[u32], &[&[u8]], &mut [&mut [u8]]) -> u64;

/// An implementation of all calls. `library!` makes it of a module that has a function for each.
#[derive(Clone, Copy)]
pub struct Library {
    pub call: Run,
}

pub const REFERENCE: Library = library!(calls);

/// The numbers of a buffer, in the machine's order.
pub fn array<const COUNT: usize>(buffer: &[u8]) -> [u32; COUNT] {
    let (numbers, []) = buffer.as_chunks::<4>() else { panic!("no whole numbers") };
    std::array::from_fn(|i| u32::from_ne_bytes(numbers[i]))
}

/// The buffer that holds these numbers, in the machine's order.
pub fn array_bytes(array: &[u32]) -> Vec<u8> {
    array.iter().flat_map(|number| number.to_ne_bytes()).collect()
}

/// Puts the numbers of a buffer in an array.
pub(crate) fn put_array<const COUNT: usize>(out: &mut [u32; COUNT], buffer: &[u8]) {
    *out = array(buffer);
}
