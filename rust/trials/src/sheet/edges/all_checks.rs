//! The order of the checks, and random sheets: accepted, with chosen checks that fail, and damaged.

use super::{answer, is_read, text, Reader, PRINTED};
use crate::sheet::damage::{damaged, failing, junk};
use crate::sheet::{accepted, Shape, GREATEST};
use crate::Random;
use lomvuze_reference::sheet::{write, MOST_BYTES};
use std::collections::BTreeMap;

/// Each check covers the whole sheet before the next one runs.
pub fn order_of_checks(by: &Reader) {
    let with = |changes: &[(&str, &str)]| {
        let sheet = changes.iter().fold(PRINTED.to_string(), |sheet, (from, to)| sheet.replace(from, to));
        answer(by, &text(&sheet))
    };
    let (order, element) = (("a→0→2→1", "a→1→2→1"), ("wit→4→5", "wit→4→2013265921"));
    let (count, rule) = (("end→2", "end→3"), ("end→", "end→0"));
    assert_eq!(with(&[order]), 4);
    assert_eq!(with(&[order, element]), 3);
    assert_eq!(with(&[order, element, count]), 2);
    assert_eq!(with(&[order, element, count, rule]), 1);
    assert_eq!(with(&[order, count]), 2);
    assert_eq!(with(&[order, rule]), 1);
    assert_eq!(with(&[element, rule]), 1);
    assert_eq!(with(&[("size→0→2→2", "size→7→2→2"), rule]), 1);
    assert_eq!(with(&[("size→0→2→2", "size→7→2→2"), order, element]), 2);
    // An early value beside a late place, and an early size beside a late element.
    assert_eq!(with(&[("a→0→2→1", "a→0→2→2013265921"), ("c→0→1→1", "c→0→4→1")]), 3);
    assert_eq!(with(&[("a→0→2→1", "a→9→2→2013265921")]), 3);
}

fn shapes(random: &mut Random, small: usize, any: usize) -> Vec<Shape> {
    let small = (0..small).map(|_| Shape::small(random)).collect::<Vec<_>>();
    let any = (0..any).map(|_| Shape::any(random)).collect::<Vec<_>>();
    [small, any, vec![GREATEST]].concat()
}

pub fn accepted_sheets(by: &Reader) {
    let mut random = Random::new(2);
    for shape in shapes(&mut random, 1000, 50) {
        let says = accepted(&mut random, &shape);
        is_read(by, &says, &write(&says));
    }
}

/// The answer is the number of the first check that fails.
pub fn failing_checks(by: &Reader) {
    let mut random = Random::new(3);
    for shape in shapes(&mut random, 1000, 50) {
        let says = accepted(&mut random, &shape);
        let all = [1, 2, 3, 4, 13];
        for i in 0..all.len() {
            for checks in [&all[i..=i], &all[i..], &[all[i], 13]] {
                let text = failing(&mut random, &says, checks);
                let expected = if text.len() > MOST_BYTES { 1 } else { checks[0] };
                assert_eq!(answer(by, &text), expected, "{checks:?}: {}", text.escape_ascii());
            }
        }
    }
}

/// Whatever the text is, the answer is one of the six, and a refusal writes nothing.
pub fn damaged_sheets(by: &Reader) {
    let mut random = Random::new(4);
    let mut answers = BTreeMap::new();
    for shape in shapes(&mut random, 1000, 10) {
        let says = accepted(&mut random, &shape);
        let mut texts = vec![junk(&mut random)];
        texts.extend((0..5).map(|_| damaged(&mut random, &says)));
        for text in texts {
            *answers.entry(answer(by, &text)).or_insert(0) += 1;
        }
    }
    assert!(answers.keys().eq(&[0, 1, 2, 3, 4, 13]), "{answers:?}");
    assert!(answers.values().all(|count| *count >= 100), "{answers:?}");
}
