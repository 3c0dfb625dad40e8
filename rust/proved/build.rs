//! Links the static library of the proved crates, `libharness.a`, from `target/staticlib` of the repository
//! or from the folder that LOMVUZE_STATICLIB names. The tests find its path as LOMVUZE_HARNESS.

use std::path::PathBuf;

fn main() {
    let folder = match std::env::var_os("LOMVUZE_STATICLIB").filter(|name| !name.is_empty()) {
        Some(folder) => PathBuf::from(folder),
        None => PathBuf::from(std::env::var_os("CARGO_MANIFEST_DIR").unwrap()).join("../../target/staticlib"),
    };
    let library = folder.join("libharness.a");
    assert!(library.exists(), "{} is missing: build it with `make target/staticlib/libharness.a`", library.display());
    println!("cargo:rerun-if-env-changed=LOMVUZE_STATICLIB");
    println!("cargo:rerun-if-changed={}", library.display());
    println!("cargo:rustc-link-search=native={}", folder.display());
    println!("cargo:rustc-link-lib=static=harness");
    println!("cargo:rustc-env=LOMVUZE_HARNESS={}", library.display());
}
