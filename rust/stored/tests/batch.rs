//! The data files of the examples are those that this crate writes.

use lomvuze_stored::batch;

fn stored(name: &str) -> Vec<u8> {
    std::fs::read(format!("{}/../../examples/{name}", env!("CARGO_MANIFEST_DIR"))).unwrap()
}

#[test]
fn the_stored_statements() {
    assert!(stored("c/statements.bin") == batch::unfolded());
}

#[test]
fn the_stored_batch() {
    assert!(stored("c/batch.bin") == batch::folded());
}

#[test]
fn the_stored_sheet_of_twenty() {
    assert!(stored("sheets/twenty.sheet") == batch::twenty());
}
