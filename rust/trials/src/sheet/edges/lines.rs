//! Check 1: the line rules.

use super::{answer, changed, is_read, printed, text, Reader, PRINTED};
use crate::sheet::{of_length, Shape, GREATEST};
use crate::Random;
use lomvuze_reference::sheet::{write, Sheet, MOST_BYTES};

pub fn the_last_line_may_lack_its_end(by: &Reader) {
    is_read(by, &printed(), text(PRINTED).strip_suffix(b"\n").unwrap());
}

pub fn texts_without_lines(by: &Reader) {
    for text in [&b""[..], b"\n", b"\n\n", b"\t", b"\t\n", b"\r\n", b"\0", b"size", b"end\t0\n", b"\xff"] {
        assert_eq!(answer(by, text), 1, "{text:?}");
    }
    assert_eq!(answer(by, &text(&PRINTED.replace('\n', "\r\n"))), 1);
    assert_eq!(answer(by, &text(&PRINTED.replace('\n', "\r"))), 1);
    assert_eq!(answer(by, &text(&PRINTED.replace('→', " "))), 1);
    assert_eq!(answer(by, &text(&PRINTED.replace('\n', "→\n"))), 1);
    assert_eq!(answer(by, &text(&PRINTED.replace('\n', ""))), 1);
    assert_eq!(answer(by, &text(&("\u{feff}".to_string() + PRINTED))), 1);
}

pub fn keywords(by: &Reader) {
    for (keyword, others) in [
        ("size→", &["siz→", "sizes→", "Size→", "sizf→", "→", "size →", " size→", "size", "size ", "a→"][..]),
        ("a→", &["A→", "aa→", "d→", "→", "a →", " a→", "a", "end→", "wit→"]),
        ("b→", &["B→", "ab→", "d→", "→", "b", "size→", "item→"]),
        ("c→", &["C→", "cc→", "d→", "→", "c", "a→", "item→"]),
        ("item→0→1→6→", &["ite→0→1→6→", "items→0→1→6→", "Item→0→1→6→", "→0→1→6→", "item0→1→6→", "c→0→1→6→"]),
        ("wit→2→", &["wi→2→", "with→2→", "wiT→2→", "→2→", "wit2→", "item→2→"]),
        ("end→", &["en→", "ends→", "End→", "enb→", "→", "end", "end ", "wit→"]),
    ] {
        for other in others {
            assert_eq!(changed(by, keyword, other), 1, "{other}");
        }
    }
}

pub fn numbers(by: &Reader) {
    let outside = ["4294967296", "4294967297", "9999999999", "10000000000", "18446744073709551619"];
    let spelled =
        ["", "03", "00", "+3", "-3", " 3", "3 ", "3\r", "3\0", "0x3", "3a", "a", "/", ":", "٣", "3.0"];
    for number in [&outside[..], &spelled].concat() {
        assert_eq!(changed(by, "size→0→2→2", &format!("size→{number}→2→2")), 1, "{number}");
        assert_eq!(changed(by, "size→0→2→2", &format!("size→0→2→{number}")), 1, "{number}");
        assert_eq!(changed(by, "a→0→2→1", &format!("a→{number}→2→1")), 1, "{number}");
        assert_eq!(changed(by, "b→0→3→1", &format!("b→0→{number}→1")), 1, "{number}");
        assert_eq!(changed(by, "c→0→1→1", &format!("c→0→1→{number}")), 1, "{number}");
        assert_eq!(changed(by, "item→0→1→6", &format!("item→{number}→1→6")), 1, "{number}");
        assert_eq!(changed(by, "item→0→1→6", &format!("item→0→{number}→6")), 1, "{number}");
        assert_eq!(changed(by, "item→0→1→6", &format!("item→0→1→{number}")), 1, "{number}");
        assert_eq!(changed(by, "wit→4→5", &format!("wit→{number}→5")), 1, "{number}");
        assert_eq!(changed(by, "wit→4→5", &format!("wit→4→{number}")), 1, "{number}");
        assert_eq!(changed(by, "end→2", &format!("end→{number}")), 1, "{number}");
    }
}

/// The greatest number keeps the line rules, wherever it stands.
pub fn the_greatest_number(by: &Reader) {
    assert_eq!(changed(by, "size→0→2→2", "size→4294967295→2→2"), 2);
    assert_eq!(changed(by, "size→0→2→2", "size→0→4294967295→2"), 2);
    assert_eq!(changed(by, "size→0→2→2", "size→0→2→4294967295"), 2);
    assert_eq!(changed(by, "end→2", "end→4294967295"), 2);
    assert_eq!(changed(by, "a→0→2→1", "a→0→2→4294967295"), 3);
    assert_eq!(changed(by, "item→0→1→6", "item→4294967295→1→6"), 3);
    assert_eq!(changed(by, "item→0→1→6", "item→0→4294967295→6"), 3);
    assert_eq!(changed(by, "item→0→1→6", "item→0→1→4294967295"), 3);
    assert_eq!(changed(by, "wit→4→5", "wit→4→4294967295"), 3);
    assert_eq!(changed(by, "a→0→2→1", "a→4294967295→2→1"), 4);
    assert_eq!(changed(by, "a→0→2→1", "a→0→4294967295→1"), 4);
}

pub fn counts_of_fields(by: &Reader) {
    for line in ["size→0→2→2", "a→0→2→1", "b→0→3→1", "c→0→1→1", "end→2"] {
        let (fewer, _) = line.rsplit_once('→').unwrap();
        let (keyword, _) = line.split_once('→').unwrap();
        for other in [fewer, keyword, &format!("{line}→1"), &format!("{line}→"), &line.replacen('→', "→→", 1)]
        {
            assert_eq!(changed(by, line, other), 1, "{other}");
        }
    }
    let item = "item→0→1→6→0..0";
    for other in ["item", "item→", "item→0..0", "item→→0..0", "item→0→1→6", "item→0→1→6→", "item→0→→6→0..0"]
    {
        assert_eq!(changed(by, item, other), 1, "{other}");
    }
    for other in ["item→0→1→6→0..0→", "item→0→1→6→0..0→1", "item→0→0..0→6", "item→0→1→6→0..0→0..0"]
    {
        assert_eq!(changed(by, item, other), 1, "{other}");
    }
    for other in ["wit", "wit→", "wit→4→", "wit→→4→5", "wit→4→→5", "wit→4→5→", "wit→4→5→0..0", "wit→4 5"]
    {
        assert_eq!(changed(by, "wit→4→5", other), 1, "{other}");
    }
    // A count that is wrong beyond that is a matter of check 2.
    for (line, other) in [
        (item, "item→0→0..0"),
        (item, "item→0→1→0..0"),
        (item, "item→0→1→6→1→0..0"),
        ("wit→4→5", "wit→4"),
        ("wit→4→5", "wit→45"),
        ("wit→4→5", "wit→4→5→6"),
    ] {
        assert_eq!(changed(by, line, other), 2, "{other}");
    }
}

pub fn roots(by: &Reader) {
    let root = |digits: String| changed(by, "6→0..0", &format!("6→{digits}"));
    for digit in "0123456789abcdef".chars() {
        assert_eq!(root(digit.to_string().repeat(64)), 0);
    }
    for length in [0, 1, 10, 62, 63, 65, 66, 128] {
        assert_eq!(root("1".repeat(length)), 1, "{length} digits");
    }
    for other in ["A", "F", "g", "G", "/", ":", "@", "`", " ", "\0", "\r", "→", "\n"] {
        for at in [0, 1, 31, 62, 63] {
            assert_eq!(root("1".repeat(at) + other + &"1".repeat(63 - at)), 1, "{other} at {at}");
        }
    }
}

pub fn order_of_lines(by: &Reader) {
    let lines: Vec<&str> = PRINTED.split_inclusive('\n').collect();
    let sheet = |lines: &[&str]| answer(by, &text(&lines.concat()));
    for i in 0..lines.len() {
        let (line, mut without) = (lines[i], lines.clone());
        without.remove(i);
        // Lists may be empty.
        assert_eq!(sheet(&without), if (1..4).contains(&i) { 0 } else { 1 }, "without {line}");
        for at in 0..lines.len() {
            let mut moved = without.clone();
            moved.insert(at, line);
            assert_eq!(sheet(&moved), if at == i { 0 } else { 1 }, "{moved:?}");
        }
        let mut repeated = lines.clone();
        repeated.insert(i, line);
        assert_eq!(sheet(&repeated), if (1..4).contains(&i) { 4 } else { 1 }, "{line} twice");
    }
    for at in 0..=lines.len() {
        for line in ["\n", "→\n", " \n", "# note\n"] {
            let mut more = lines.clone();
            more.insert(at, line);
            assert_eq!(sheet(&more), 1, "{line:?} before line {at}");
        }
    }
    for more in ["e", "\t", "\0", "end→2", "size→0→2→2", PRINTED] {
        assert_eq!(answer(by, &text(&(PRINTED.to_string() + more))), 1, "{more:?} behind the end");
    }
}

/// With its pairs in any order, or without the lists, a sheet is read as it stands.
pub fn order_of_pairs(by: &Reader) {
    let mut says = printed();
    says.pairs.reverse();
    is_read(by, &says, &write(&says));
    for says in [Sheet { a: vec![], ..printed() }, Sheet { a: vec![], b: vec![], c: vec![], ..printed() }] {
        is_read(by, &says, &write(&says));
    }
}

pub fn greatest_length(by: &Reader) {
    let mut random = Random::new(1);
    for shape in [GREATEST, Shape { entries: [8; 3], pairs: 40, ..GREATEST }] {
        let says = of_length(&mut random, &shape, MOST_BYTES);
        is_read(by, &says, &write(&says));
        is_read(by, &says, write(&says).strip_suffix(b"\n").unwrap());

        let says = of_length(&mut random, &shape, MOST_BYTES + 1);
        assert_eq!(answer(by, &write(&says)), 1);
        is_read(by, &says, write(&says).strip_suffix(b"\n").unwrap());

        let says = of_length(&mut random, &shape, MOST_BYTES + 2);
        assert_eq!(answer(by, write(&says).strip_suffix(b"\n").unwrap()), 1);
    }
    for length in [MOST_BYTES, MOST_BYTES + 1, 65_536, 1 << 20] {
        assert_eq!(answer(by, &vec![b'\n'; length]), 1);
        assert_eq!(answer(by, &write(&printed()).repeat(length / 100)), 1);
    }
}
