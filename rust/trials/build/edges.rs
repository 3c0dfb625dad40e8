//! The tests of the edges: each function of a folder that takes the library alone and is public.

use std::fs;
use std::path::{Path, PathBuf};

/// A macro of this name that makes a test of each edge in a folder of `src`.
pub fn tests(name: &str, folder: &str) -> String {
    let path = Path::new("src").join(folder);
    let module = folder.replace('/', "::");
    let mut files: Vec<PathBuf> =
        fs::read_dir(&path).expect("the folder is there").map(|file| file.expect("a file").path()).collect();
    files.sort();
    let modules: String = files.iter().map(|file| tests_of(file, &module)).collect();
    format!(
        "/// A test for each of the edges in [`{module}`](crate::{module}), by the library that is named.
#[macro_export]\nmacro_rules! {name} {{\n    ($by:expr) => {{\n{modules}    }};\n}}\n\n"
    )
}

/// The tests of one file, as a module of its name.
fn tests_of(file: &Path, module: &str) -> String {
    let name = file.file_stem().and_then(|name| name.to_str()).expect("a name");
    let text = fs::read_to_string(file).expect("the file is read");
    let public = text.lines().filter_map(|line| line.strip_prefix("pub fn ")?.split_once('('));
    let edges: Vec<&str> = public
        .filter(|(_, arguments)| ["by: &Library) {", "by: &Reader) {"].contains(arguments))
        .map(|(edge, _)| edge)
        .collect();
    // Every function that gives nothing back and takes the library alone is a test, on one line or not.
    let joined = text.split_whitespace().collect::<Vec<_>>().join(" ").replace("( ", "(").replace(", )", ")");
    let taking = joined.matches("(by: &Library) {").count() + joined.matches("(by: &Reader) {").count();
    assert!(
        taking == edges.len(),
        "{}: an edge is `pub fn NAME(by: &Library) {{` on one line",
        file.display()
    );
    let tests: String = edges
        .iter()
        .map(|edge| {
            format!("            #[test] fn {edge}() {{ $crate::{module}::{name}::{edge}(&$by); }}\n")
        })
        .collect();
    match tests.is_empty() {
        true => String::new(),
        false => format!("        mod {name} {{\n            use super::*;\n{tests}        }}\n"),
    }
}
