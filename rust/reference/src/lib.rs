//! Lomvuze a second time: slow, obvious, and written from the standards, the scope paper and the changes to it alone.
//!
//! The proved library is compared with this one. Read the modules in this order:
//!
//! - [`field`] — the prime field of p = 2013265921 elements
//! - [`sha256`] — SHA-256 (FIPS 180-4)
//! - [`tree`] — hash trees (RFC 6962, section 2.1) and openings
//! - [`code`] — the points and the codeword of a witness
//! - [`polynomial`] — polynomials over the field
//! - [`claims`] — circuits, items, their value, the quotient and the fold
//! - [`draws`] — seed, challenge, positions and r, drawn by hash
//! - [`calls`] — the public calls over byte buffers, with their checks in order
//! - [`sheet`] — the reader of sheets and the listing of their claims

pub mod calls;
mod checks;
pub mod claims;
pub mod code;
pub mod draws;
pub mod field;
pub mod polynomial;
pub mod sha256;
pub mod sheet;
pub mod tree;

pub use checks::{element_bytes, item_bytes};
