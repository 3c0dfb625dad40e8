//! Check 13: the first input of every pair's item is 1.

use super::{answer, changed, is_read, text, zeros, Reader, PRINTED};
use crate::sheet::first_inputs;
use lomvuze_reference::field::P;
use lomvuze_reference::sheet::{write, Pair, Sheet};

/// The answer to a sheet where the items of these pairs have another first input.
fn with_first_inputs(by: &Reader, says: &Sheet, pairs: std::ops::Range<usize>, number: u32) -> u32 {
    let mut says = says.clone();
    first_inputs(&mut says).drain(pairs).for_each(|first| *first = number);
    answer(by, &write(&says))
}

/// In sheets of up to 64 pairs: each alone, all of them, and all but one.
pub fn every_pair_counts(by: &Reader) {
    for (m, n, k) in [(0, 1, 2), (6, 1, 2), (2, 3, 4)] {
        for pairs in [1, 2, 3, 5, 63, 64] {
            let says = zeros(m, n, k, pairs);
            is_read(by, &says, &write(&says));
            for number in [0, 2, 11, P - 1] {
                for i in 0..pairs {
                    assert_eq!(
                        with_first_inputs(by, &says, i..i + 1, number),
                        13,
                        "pair {i} of {pairs}: {number}"
                    );
                }
                for several in [0..pairs, 1..pairs, 0..pairs - 1] {
                    let expected = if several.is_empty() { 0 } else { 13 };
                    assert_eq!(
                        with_first_inputs(by, &says, several, number),
                        expected,
                        "{pairs} pairs: {number}"
                    );
                }
            }
        }
    }
}

/// A number of p or more is 3, also one that has the remainder 1.
pub fn first_inputs_of_p_or_more(by: &Reader) {
    for number in [P, P + 1, u32::MAX] {
        for i in [0, 2, 4] {
            assert_eq!(with_first_inputs(by, &zeros(1, 2, 4, 5), i..i + 1, number), 3, "pair {i}: {number}");
        }
    }
}

/// Beside the first input, e, r, x and w are any elements: with r, other inputs and w of 1 none makes up for it, and
/// without a 1 among them a sheet is accepted.
pub fn other_numbers_are_free(by: &Reader) {
    let of = |[e, r, first, second, w]: [u32; 5]| {
        let pair = Pair { numbers: vec![e, r, r, first, second], root: [0; 32], witness: vec![w; 2] };
        answer(
            by,
            &write(&Sheet { size: [2, 2, 2], a: vec![], b: vec![], c: vec![], pairs: vec![pair], end: 1 }),
        )
    };
    assert_eq!([of([0, 0, 1, 0, 0]), of([P - 1, 2, 1, P - 1, 2]), of([1, 1, 1, 1, 1])], [0; 3]);
    assert_eq!([of([0, 0, 0, 0, 0]), of([1, 1, 0, 1, 1]), of([1, 1, P - 1, 1, 1])], [13; 3]);
}

/// Check 13 comes last: after 4 of any list and 3 of any line, before and behind the item.
pub fn the_place_of_check_13(by: &Reader) {
    let first = ("item→0→1→6", "item→0→2→6");
    let second = ("item→0→1→21", "item→0→0→21");
    let others = [
        (4, "a→0→2→1", "a→1→2→1"),
        (4, "b→0→3→1", "b→0→4→1"),
        (4, "c→0→1→1", "c→0→1→1\nc→0→1→1"),
        (3, "a→0→2→1", "a→0→2→2013265921"),
        (3, "c→0→1→1", "c→9→1→2013265921"),
        (3, "wit→2→3", "wit→2→2013265921"),
        (3, "wit→4→5", "wit→2013265921→5"),
        (2, "size→0→2→2", "size→7→2→2"),
        (2, "wit→4→5", "wit→4"),
        (2, "end→2", "end→1"),
        (1, "size→0→2→2", "size→0→2→02"),
        (1, "end→2", "end→2→"),
    ];
    for leading in [&[first][..], &[second], &[first, second]] {
        let sheet = leading.iter().fold(PRINTED.to_string(), |sheet, (from, to)| sheet.replace(from, to));
        assert_eq!(answer(by, &text(&sheet)), 13);
        for (number, from, to) in others {
            assert_eq!(changed(by, from, to), number, "{to} alone");
            assert_eq!(answer(by, &text(&sheet.replace(from, to))), number, "{to} and another first input");
        }
    }
}

/// The one-row circuit without the 1 in front of x.
pub fn the_sheet_without_a_leading_one(by: &Reader) {
    let without = "size→0→1→2\na→0→1→1\nb→0→2→1\nc→0→0→1\nitem→0→6→0..0\nwit→2→3\nend→1\n";
    assert_eq!(answer(by, &text(without)), 13);
}
