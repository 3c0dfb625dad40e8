//! Writes the sheet of twenty items to the folder that is named:
//! `cargo run --release --offline -p lomvuze-stored --bin twenty -- ../examples/sheets`.

use lomvuze_stored::{batch, folder_or_usage};

fn main() -> std::io::Result<()> {
    let (folder, _) = folder_or_usage("twenty FOLDER", 0);
    std::fs::write(folder.join("twenty.sheet"), batch::twenty())
}
