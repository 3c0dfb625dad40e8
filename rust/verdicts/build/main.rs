//! Links the library of the calls, and writes their declarations from the one description of them (`lomvuze-calls`).

mod declarations;
mod library;

use lomvuze_calls::{Description, CALLS};
use std::path::PathBuf;
use std::process::exit;

fn main() {
    if let Err(why) = library::link().and_then(|()| declare()) {
        eprintln!("{why}");
        exit(1);
    }
}

/// Writes `calls.rs`, which the crate includes.
fn declare() -> Result<(), String> {
    println!("cargo:rerun-if-changed=build");
    let calls = Description::read(CALLS).map_err(|why| format!("calls.txt of lomvuze-calls, {why}"))?;
    let folder = PathBuf::from(std::env::var_os("OUT_DIR").expect("cargo sets it"));
    std::fs::write(folder.join("calls.rs"), declarations::of(&calls)).map_err(|why| why.to_string())
}
