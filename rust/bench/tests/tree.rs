//! The plain tree beside the reference.

use bench::plain::tree as plain;
use lomvuze_calls::layout::OpeningLayout;
use lomvuze_reference::{code, tree};
use lomvuze_trials::Random;

/// The root and every opening.
#[test]
fn trees() {
    let codeword = Random::new(1).elements(256);
    let (entries, values) = (code::entries(&codeword), std::array::from_fn(|i| codeword[i].number()));
    assert_eq!(plain::root(&values), tree::root(&entries));
    let layout = OpeningLayout { k: 64 };
    let mut openings = vec![0; 256 * layout.bytes()];
    plain::openings(&values, 0..256, &mut openings);
    for (position, opening) in openings.chunks(layout.bytes()).enumerate() {
        assert_eq!(opening[layout.value()], values[position].to_le_bytes());
        assert_eq!(&opening[layout.siblings()], tree::path(position, &entries).as_flattened());
    }
}
