// On the page of the crate these stand for the paths of README.md: of a name that is defined twice, the first one
// counts.
//! [examples/fold_two.rs]: examples::fold_two
//! [examples/fold_sheet]: examples::fold_sheet
//! [docs/SHEETS.md]: read_sheet
//! [docs/OBLIGATIONS.md]: crate#what-the-caller-sees-to
//!
#![doc = include_str!("../README.md")]
//!
//! ## The calls
//!
//! In the order of use, and two that a chain does not need:
//!
//! - [`encode`]: the codeword and root of a witness
//! - [`draw_r`]: r of an item, from its root and public inputs
//! - [`cast`]: an item from a circuit, r, public inputs and a witness
//! - [`quotient`]: the quotient of up to 8 items and their witnesses, from which a challenge is drawn
//! - [`draw_challenge`]: the challenge, from items and quotient
//! - [`fold`]: quotient, new item and new witness for a challenge
//! - [`draw_positions`]: the positions, from seed, challenge and the new item's root
//! - [`open`]: the openings of one witness: to be called for each item's witness and for the new one, with
//!   the same positions
//! - [`verify`]: tests a fold, without circuit or witness, and counts the SHA-256 blocks that this takes
//! - [`decide`]: tests one item, such as the last new one, with its circuit and witness
//! - [`interleave`]: the openings in the order of a verifier in C
//! - [`read_sheet`]: sizes, circuit, items and witnesses from a sheet of text
//!
//! A call returns the [`Refusal`] of the first of its checks that fails; [`verify`] has it in the verdict of [`Verified`].
//! Each check covers the whole input before the next one runs.
//!
//! ## What the caller sees to
//!
//! The calls are about items. That a verdict on items is one about a ledger takes things that no call can test, and drawing
//! settles a part of them: `docs/OBLIGATIONS.md` of the repository has them all, with their reasons. An installation has it
//! as `share/doc/lomvuze/docs/OBLIGATIONS.md`. The types help with these:
//!
//! - [`Item::is_fresh`]: whether e is 0, as in every item that is no result of a fold.
//! - [`Positions::count_different`]: of the positions of a fold, at least k have to differ.
//! - [`Sizes::challenge_bound`]: at how many challenges a list with a false item can pass, for one quotient and one set of k
//!   positions, but for a SHA-256 collision.
//! - [`Verified`]: the verdict beside the blocks, which say nothing about the items.
//! - [`examples::fold_sheet`]: which statements that were expected no verdict covers.
//!
//! ## Types
//!
//! Lists of numbers have a type each: [`Points`], [`R`], [`PublicInputs`], [`Witness`], [`Quotient`], [`Positions`]. They
//! are made from arrays, slices and vectors, and read as slices; none is taken for another:
//!
//! ```compile_fail
//! use lomvuze::{encode, Points, Positions, Sizes};
//!
//! let sizes = Sizes { m: 0, n: 2, k: 2 };
//! let _ = encode(sizes, &Points::built_in(), &Positions::from([2, 3])); // positions are no witness
//! ```
//!
//! A [`Seed`] is a type of its own too: no root is taken for it.
//!
//! ## Sizes
//!
//! | | | |
//! |---|---|---|
//! | m | 0 to 6 | a circuit has 2^m rows |
//! | n | 1 to 64 | public inputs of a claim, of which the first is 1 |
//! | k | 2, 4, 8, 16, 32 or 64 | numbers of a witness |
//! | l | 1 to 8 | items of a fold |
//! | t | 1 to 4k | positions at which a fold is opened; repeats are permitted |
//!
//! No input makes a call panic. Sizes, counts and lengths that are not permitted, or that do not fit each
//! other, give [`Refusal::Sizes`], and this answer is the library's own too:
//!
//! - Where an item, a witness or an opening does not have the length that the sizes give, its list is passed to
//!   the library as an empty buffer, which check 2 refuses. So no number is taken for its neighbour: an item
//!   with one number too many in r and one too few in x is refused.
//! - No long buffer is made, whatever the sizes say and however much is passed. What the library is to write
//!   gets at most the length that the greatest sizes give; of a list that is too long, only so much is copied
//!   that check 2 refuses it.

#![no_std]
#![forbid(unsafe_code)]
#![deny(missing_docs)]

extern crate alloc;

mod buffers;
mod calls;
mod drawn;
mod layout;
mod lists;
mod refusal;
mod sizes;
mod values;

pub use calls::{cast, decide, encode, fold, interleave, open, quotient, read_sheet, verify};
pub use calls::{draw_challenge, draw_positions, draw_r};
pub use drawn::{Drawn, Seed};
pub use layout::{numbers_from_bytes, numbers_to_bytes};
pub use lists::{Challenge, Points, Positions, PublicInputs, Quotient, Witness, R};
pub use refusal::{NoCheck, Refusal};
pub use sizes::{Sizes, MAX_ENTRIES, MAX_K, MAX_L, MAX_M, MAX_N, MAX_PAIRS, MAX_SHEET, P};
pub use values::{Circuit, Digest, Encoded, Entry, Folded, Item, Opening, Sheet, Verified};

/// The programs of the folder `examples`: they are on this page only.
#[cfg(all(doc, not(doctest)))]
pub mod examples {
    #[doc = concat!("```\n", include_str!("../examples/fold_two.rs"), "```")]
    pub mod fold_two {}

    /// `main.rs`
    ///
    #[doc = concat!("```\n", include_str!("../examples/fold_sheet/main.rs"), "```")]
    ///
    /// `folding.rs`
    ///
    #[doc = concat!("```\n", include_str!("../examples/fold_sheet/folding.rs"), "```")]
    ///
    /// `expected.rs`
    ///
    #[doc = concat!("```\n", include_str!("../examples/fold_sheet/expected.rs"), "```")]
    ///
    /// Beside them are `options.rs`, `circuit.rs` and `sha256.rs`.
    pub mod fold_sheet {}
}
