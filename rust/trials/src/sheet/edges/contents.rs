//! Checks 3 and 4.

use super::{answer, changed, is_read, zeros, Reader};
use lomvuze_reference::field::P;
use lomvuze_reference::sheet::{write, Sheet};

pub fn elements(by: &Reader) {
    for (line, other) in [
        ("a→0→2→1", "a→0→2→E"),
        ("b→0→3→1", "b→0→3→E"),
        ("c→0→1→1", "c→0→1→E"),
        ("item→0→1→6", "item→E→1→6"),
        ("item→0→1→6", "item→0→1→E"),
        ("item→0→1→21", "item→E→1→21"),
        ("item→0→1→21", "item→0→1→E"),
        ("wit→2→3", "wit→E→3"),
        ("wit→2→3", "wit→2→E"),
        ("wit→4→5", "wit→E→5"),
        ("wit→4→5", "wit→4→E"),
    ] {
        assert_eq!(changed(by, line, &other.replace('E', "2013265920")), 0, "{other}");
        assert_eq!(changed(by, line, &other.replace('E', "2013265921")), 3, "{other}");
    }
    // Every number of every pair, at the greatest sizes. The first input is number 7.
    let pair = zeros(6, 64, 64, 1).pairs[0].clone();
    for i in 0..1 + 6 + 64 {
        for (number, expected) in [(P - 1, if i == 7 { 13 } else { 0 }), (P, 3)] {
            let mut says = zeros(6, 64, 64, 3);
            says.pairs[i % 3].numbers[i] = number;
            assert_eq!(answer(by, &write(&says)), expected, "number {i}");
        }
    }
    for i in 0..pair.witness.len() {
        for (number, expected) in [(P - 1, 0), (P, 3)] {
            let mut says = zeros(6, 64, 64, 3);
            says.pairs[i % 3].witness[i] = number;
            assert_eq!(answer(by, &write(&says)), expected, "witness {i}");
        }
    }
}

/// Rows and columns are no elements.
pub fn places(by: &Reader) {
    let with = |list: usize, entries: &[[u32; 2]]| {
        let mut says = zeros(2, 3, 4, 1);
        *[&mut says.a, &mut says.b, &mut says.c][list] =
            entries.iter().map(|[row, column]| [*row, *column, 5]).collect();
        answer(by, &write(&says))
    };
    for list in 0..3 {
        assert_eq!(with(list, &[[3, 6]]), 0);
        for place in [[4, 6], [3, 7], [4, 0], [0, 7], [P, 0], [0, P], [u32::MAX, 0], [0, u32::MAX]] {
            assert_eq!(with(list, &[place]), 4, "{place:?}");
            assert_eq!(with(list, &[[0, 0], [0, 1], place]), 4, "{place:?}");
        }
        assert_eq!(with(list, &[[0, 6], [1, 0], [1, 1], [3, 0]]), 0);
        assert_eq!(with(list, &[[1, 1], [1, 1]]), 4);
        assert_eq!(with(list, &[[1, 2], [1, 1]]), 4);
        assert_eq!(with(list, &[[1, 1], [0, 2]]), 4);
        assert_eq!(with(list, &[[0, 0], [2, 6], [2, 5]]), 4);
        assert_eq!(with(list, &[[0, 1], [0, 2], [0, 2]]), 4);
    }
    // The lists are in order each by itself.
    let says = Sheet { a: vec![[1, 1, 1]], b: vec![[1, 1, 1]], c: vec![[0, 0, 1]], ..zeros(1, 1, 2, 1) };
    is_read(by, &says, &write(&says));
}
