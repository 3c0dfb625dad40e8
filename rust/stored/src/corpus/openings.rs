//! The seeds of verifying whose openings do not lead to their roots.

use super::seed;
use lomvuze_trials::answer::after;
use lomvuze_trials::{Call, Honest, Name, Part, Random, REFERENCE};
use std::path::PathBuf;

/// Verifying where the first of nine openings does not lead to its root, where the one in the middle does not, and where
/// the last one does not: by its value, by its first sibling, and by its last one. Of two, the first is counted.
pub(super) fn stored(random: &mut Random) -> Vec<(PathBuf, Vec<u8>)> {
    let list = Honest::with_entries(random, 1, 2, 4, 2, [3, 3, 3]);
    let call = Call::over(random, Name::Verify, list, 3);
    let (openings, length) =
        (call.input_of(Part::OpeningsByPosition).unwrap(), call.opening_layout().bytes());
    let damaged: [(&str, &[(usize, usize)]); 4] = [
        ("8-first-value", &[(0, 0)]),
        ("8-middle-sibling", &[(4, 4)]),
        ("8-last-sibling", &[(8, length - 1)]),
        ("8-two", &[(7, 4), (5, length - 1)]),
    ];
    damaged
        .into_iter()
        .map(|(what, places)| {
            let mut call = call.clone();
            places.iter().for_each(|(j, at)| call.inputs[openings][j * length + at] ^= 1);
            let first = places.iter().map(|(j, _)| *j).min().unwrap();
            assert_eq!(call.clone().run(&REFERENCE), after(first + 1, 4, 8), "{what}");
            seed(what, &call)
        })
        .collect()
}
