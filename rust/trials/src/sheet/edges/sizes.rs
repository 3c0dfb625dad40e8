//! Check 2: sizes, counts and lengths.

use super::{answer, changed, is_read, printed, text, zeros, Reader, PRINTED};
use crate::sheet::Buffers;
use lomvuze_reference::sheet::{write, Sheet};

/// Entries at the first places, row by row.
fn entries(count: u32, columns: u32) -> Vec<[u32; 3]> {
    (0..count).map(|i| [i / columns, i % columns, 1]).collect()
}

pub fn sizes(by: &Reader) {
    for m in 0..10 {
        assert_eq!(answer(by, &write(&zeros(m, 1, 2, 1))), if m <= 6 { 0 } else { 2 }, "m = {m}");
    }
    for n in 0..70 {
        let permitted = (1..=64).contains(&n);
        assert_eq!(answer(by, &write(&zeros(0, n, 2, 1))), if permitted { 0 } else { 2 }, "n = {n}");
    }
    for k in 1..130 {
        let permitted = [2, 4, 8, 16, 32, 64].contains(&k);
        assert_eq!(answer(by, &write(&zeros(0, 1, k, 1))), if permitted { 0 } else { 2 }, "k = {k}");
    }
    // Sizes whose low bytes are permitted.
    for size in [[256, 2, 2], [0, 258, 2], [0, 2, 258], [1 << 31, 2, 2], [0, 65538, 2], [0, 2, 65538]] {
        assert_eq!(answer(by, &write(&Sheet { size, ..printed() })), 2, "{size:?}");
    }
    // 1 + m + n is the count of the items' numbers modulo 2^32 only.
    assert_eq!(changed(by, "size→0→2→2", "size→4294967295→3→2"), 2);
    assert_eq!(changed(by, "size→0→2→2", "size→3→4294967295→2"), 2);
    assert_eq!(changed(by, "size→0→2→2", "size→0→2→0"), 2);
}

pub fn counts_of_entries(by: &Reader) {
    let full = |list: usize, count: u32| {
        let mut says = zeros(5, 32, 32, 1);
        *[&mut says.a, &mut says.b, &mut says.c][list] = entries(count, 64);
        says
    };
    for list in 0..3 {
        is_read(by, &full(list, 1024), &write(&full(list, 1024)));
        for count in [1025, 1026, 1280, 2048] {
            assert_eq!(answer(by, &write(&full(list, count))), 2, "{count} in list {list}");
        }
    }
    let all =
        Sheet { a: entries(1024, 64), b: entries(1024, 64), c: entries(1024, 64), ..zeros(5, 32, 32, 1) };
    is_read(by, &all, &write(&all));
}

pub fn counts_of_pairs(by: &Reader) {
    for pairs in [1, 2, 63, 64] {
        is_read(by, &zeros(0, 1, 2, pairs), &write(&zeros(0, 1, 2, pairs)));
    }
    for pairs in [0, 65, 66, 128, 256, 320] {
        assert_eq!(answer(by, &write(&zeros(0, 1, 2, pairs))), 2, "{pairs} pairs");
        assert_eq!(answer(by, &write(&Sheet { end: 64, ..zeros(0, 1, 2, pairs) })), 2, "{pairs} pairs");
    }
    for (pairs, end) in [(2, 1), (2, 0), (2, 3), (64, 63), (64, 65), (1, 2), (0, 1), (1, 257), (1, 65537)] {
        assert_eq!(
            answer(by, &write(&Sheet { end, ..zeros(0, 1, 2, pairs) })),
            2,
            "{pairs} pairs, end {end}"
        );
    }
    assert_eq!(changed(by, "end→2", "end→1"), 2);
    assert_eq!(answer(by, &text("size→0→2→2\nend→0\n")), 2);
}

pub fn counts_of_numbers(by: &Reader) {
    for (m, n, k) in [(0, 1, 2), (6, 64, 64), (3, 2, 8)] {
        for i in [0, 1, 2] {
            for more in [1, -1] {
                let resize =
                    |numbers: &mut Vec<u32>| numbers.resize((numbers.len() as i32 + more) as usize, 0);
                let mut says = zeros(m, n, k, 3);
                resize(&mut says.pairs[i].numbers);
                assert_eq!(answer(by, &write(&says)), 2, "item {i} has {more} more");
                let mut says = zeros(m, n, k, 3);
                resize(&mut says.pairs[i].witness);
                assert_eq!(answer(by, &write(&says)), 2, "witness {i} has {more} more");
            }
        }
    }
    // Two items that have the right count together, and thousands of numbers on a line.
    let mut says = zeros(1, 2, 4, 2);
    let moved = says.pairs[0].numbers.pop();
    says.pairs[1].numbers.extend(moved);
    assert_eq!(answer(by, &write(&says)), 2);
    for count in [256 + 4, 20_000, 29_000] {
        let mut says = zeros(1, 2, 4, 1);
        says.pairs[0].numbers = vec![0; count];
        assert_eq!(answer(by, &write(&says)), 2);
        let mut says = zeros(1, 2, 4, 1);
        says.pairs[0].witness = vec![0; count];
        assert_eq!(answer(by, &write(&says)), 2);
    }
}

pub fn lengths_of_buffers(by: &Reader) {
    let with_lengths = |lengths: [usize; 5], text: &[u8]| {
        let fresh = Buffers::new(lengths);
        let mut buffers = fresh.clone();
        let reading = by.read(&mut buffers, text);
        assert!(buffers == fresh);
        reading.answer
    };
    for i in 0..5 {
        let length = Buffers::LENGTHS[i];
        for other in
            [0, 1, 4, length - 12, length - 4, length - 1, length + 1, length + 4, length + 12, 2 * length]
        {
            let mut lengths = Buffers::LENGTHS;
            lengths[i] = other;
            assert_eq!(with_lengths(lengths, &text(PRINTED)), 2, "{other} bytes in the place of {length}");
            assert_eq!(with_lengths(lengths, &text(&PRINTED.replace("2→3", "2→2013265921"))), 2);
            assert_eq!(with_lengths(lengths, &text(&PRINTED.replace("a→0", "a→1"))), 2);
            assert_eq!(with_lengths(lengths, &text(&PRINTED.replace("end", "enb"))), 1);
        }
    }
}
