//! The files that are stored in the repository and worked out by the reference: the data of the examples, and the seeds of the
//! fuzz targets. Its programs write them, and its tests compare what is stored with them.

pub mod batch;
pub mod corpus;

use std::path::PathBuf;
use std::process::exit;

/// The folder that a program is to write to, and a count where so many further words are permitted and one is there. Other
/// words end the program with status 2 and its usage.
pub fn folder_or_usage(usage: &str, further: usize) -> (PathBuf, Option<usize>) {
    let words: Vec<_> = std::env::args_os().skip(1).collect();
    let count = words.get(1).map(|word| word.to_str().and_then(|word| word.parse().ok()));
    match (words.first(), count) {
        (Some(folder), None) => (folder.into(), None),
        (Some(folder), Some(Some(count))) if words.len() <= 1 + further => (folder.into(), Some(count)),
        _ => {
            eprintln!("usage: {usage}");
            exit(2)
        }
    }
}
