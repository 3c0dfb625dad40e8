//! Writes the data of the C examples to the folder that is named:
//! `cargo run --release --offline -p lomvuze-stored --bin batch -- ../examples/c`.

use lomvuze_stored::{batch, folder_or_usage};

fn main() -> std::io::Result<()> {
    let (folder, _) = folder_or_usage("batch FOLDER", 0);
    std::fs::write(folder.join("statements.bin"), batch::unfolded())?;
    std::fs::write(folder.join("batch.bin"), batch::folded())
}
