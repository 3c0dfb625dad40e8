//! Writes the seeds of the fuzz targets to the folder that is named, or, where a count follows, so many honest
//! calls of any size for each target:
//! `cargo run --release --offline -p lomvuze-stored --bin corpus -- ../fuzz/corpus`.

use lomvuze_stored::{corpus, folder_or_usage};

fn main() -> std::io::Result<()> {
    let (folder, count) = folder_or_usage("corpus FOLDER [COUNT]", 1);
    let files = match count {
        Some(count) => corpus::honest(count),
        None => corpus::stored(),
    };
    corpus::write(&folder, files)
}
