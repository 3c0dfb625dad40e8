//! The seeds of the fuzz targets are those that this crate writes.

use lomvuze_stored::corpus;
use std::collections::BTreeMap;
use std::fs;
use std::path::{Path, PathBuf};

const OLD: &str = "`cargo run --release --offline -p lomvuze-stored --bin corpus -- ../fuzz/corpus`, in rust/, writes the seeds";

#[test]
fn the_stored_seeds() {
    let folder = Path::new(env!("CARGO_MANIFEST_DIR")).join("../../fuzz/corpus");
    let mut stored = BTreeMap::new();
    for call in fs::read_dir(&folder).unwrap() {
        for file in fs::read_dir(call.unwrap().path()).unwrap() {
            let path = file.unwrap().path();
            let name: PathBuf = path.strip_prefix(&folder).unwrap().into();
            stored.insert(name, fs::read(path).unwrap());
        }
    }
    let written: BTreeMap<_, _> = corpus::stored().into_iter().collect();
    let names = |seeds: &BTreeMap<PathBuf, Vec<u8>>| seeds.keys().cloned().collect::<Vec<_>>();
    assert_eq!(names(&stored), names(&written), "{OLD}");
    assert!(stored == written, "{OLD}");
}
