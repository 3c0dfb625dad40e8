//! Lomvuze's calls, proved, through their C boundary (`include/lomvuze.h`): one safe function for each. They are declared
//! from the description of the calls in `lomvuze-calls`, and nowhere else in Rust; the crate `lomvuze`, the tests and the
//! benchmark use these.
//!
//! Each tests its own input and answers its verdict: 0, or the number of the first check that fails; a refusal writes
//! nothing. Verifying answers 64 times the number of SHA-256 blocks that it processed, plus its verdict. `points` is
//! empty for the built-in evaluation points, or holds 4k numbers. A slice crosses the boundary as pointer and length.
//! Rust's borrowing gives what the calls ask of the caller: no null pointer, and no output buffer that overlaps
//! another buffer.

#![no_std]
#![allow(clippy::too_many_arguments)]

include!(concat!(env!("OUT_DIR"), "/calls.rs"));
