//! Damage to sheets: changes that make chosen checks fail; random changes of what a sheet says, of its lines
//! and fields, and of its bytes; and texts that are no sheets.

mod checks;
mod junk;
mod lines;
mod misspelled;
mod random;

use crate::Random;
use lomvuze_reference::sheet::Sheet;

pub use checks::failing;
pub use junk::junk;
pub(crate) use random::change_bytes;
pub use random::damaged;

fn pick<T: Copy>(random: &mut Random, from: &[T]) -> T {
    from[random.below(from.len())]
}

fn pick_list<'a>(random: &mut Random, sheet: &'a mut Sheet) -> &'a mut Vec<[u32; 3]> {
    let Sheet { a, b, c, .. } = sheet;
    [a, b, c].into_iter().nth(random.below(3)).unwrap()
}
