//! The public calls: the scope paper's section "Checking order", putting openings in the verifier's order, drawing by hash,
//! and the reader of sheets.
//!
//! A call's verdict is 0 or the number of the first check that fails, and a refusal writes nothing. Each check
//! runs over all of a call's input before the next. Check 12 stands directly after 3, and 13 directly after 4 (in
//! verifying and drawing, which take no circuit, directly after 3). A call answers its verdict; verifying answers 64
//! times the number of SHA-256 blocks that it processed, plus its verdict.
//!
//! Points are lent as 4k numbers. Where `points` is empty, a call uses the built-in ones.

mod draws;
mod folds;
mod items;
mod witnesses;

pub use crate::sheet::read_sheet;
pub use draws::*;
pub use folds::*;
pub use items::*;
pub use witnesses::*;
