//! The calls. Each passes its arguments to the library in the layout of `include/lomvuze.h`, and reads what the library
//! wrote.

mod draws;
mod folds;
mod items;
mod sheets;
mod witnesses;

pub use draws::*;
pub use folds::*;
pub use items::*;
pub use sheets::*;
pub use witnesses::*;

/// A count for the library. One that 32 bits do not hold is above every limit, and so is what stands for it.
fn number(count: usize) -> u32 {
    count.try_into().unwrap_or(u32::MAX)
}

/// How many a list has, for the library.
fn count<T>(list: &[T]) -> u32 {
    number(list.len())
}
