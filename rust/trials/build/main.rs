//! Writes `generated.rs`, which the crate includes: what the description of the calls says, as Rust types and macros, and a
//! test for each edge.

mod edges;
mod library;
mod names;

use lomvuze_calls::{Description, CALLS};
use std::path::PathBuf;

fn main() {
    for path in ["build", "src/edges", "src/sheet/edges"] {
        println!("cargo:rerun-if-changed={path}");
    }
    let calls = Description::read(CALLS).unwrap_or_else(|why| panic!("calls.txt, {why}"));
    let text = [
        names::of(&calls),
        library::typed(&calls),
        library::of_module(&calls),
        library::tests(&calls),
        edges::tests("edge_tests", "edges"),
        edges::tests("sheet_edge_tests", "sheet/edges"),
    ];
    let folder = PathBuf::from(std::env::var_os("OUT_DIR").expect("cargo sets it"));
    std::fs::write(folder.join("generated.rs"), text.concat()).expect("the file is written");
}
