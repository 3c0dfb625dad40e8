//! What the programs of this package share: the proved library's algorithms in plain Rust, where those of `lomvuze_reference` are
//! others, and the measurement of both.

mod clock;
mod layers;
pub mod machine;
pub mod measure;
pub mod openssl;
pub mod openssl_rows;
pub mod plain;
pub mod rows;
pub mod runs;
pub mod table;
