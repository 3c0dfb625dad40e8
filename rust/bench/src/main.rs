//! The proved library's speed beside the same algorithms in plain Rust, and OpenSSL's SHA-256 beside plain Rust. To run it:
//! `cargo run --release --offline -p bench`. It takes a minute, and prints tables in Markdown.
//!
//! All is measured in five runs of this program, each in rounds that alternate between the two; of a run the best round
//! counts. A row has both times of one run: of that whose ratio is the middle one. A ratio above 1 says that the proved
//! code, or OpenSSL, takes longer. What is measured is the thread's processor time, so that other work on the machine
//! disturbs it less.

use bench::{openssl_rows, rows, runs, table::ROUNDS};

fn main() {
    match std::env::args().nth(1).as_deref() {
        None => runs::print_tables(),
        Some(rows::ARGUMENT) => rows::measure(ROUNDS),
        Some(openssl_rows::ARGUMENT) => openssl_rows::measure(ROUNDS),
        Some(other) => panic!("no argument is expected, and not {other}"),
    }
}
