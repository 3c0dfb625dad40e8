//! The places of layout.rs are those of the lines `layout`, for all sizes, permitted or not.

use lomvuze_calls::layout::{ItemLayout, OpeningLayout};
use lomvuze_calls::{Description, CALLS};

/// A number of 32 bits by its name.
fn of<'a>(numbers: &'a [(&str, u32)]) -> impl Fn(&str) -> u32 + 'a {
    |name| numbers.iter().find(|(of, _)| *of == name).expect("a number").1
}

#[test]
fn items() {
    let calls = Description::read(CALLS).unwrap();
    let item = calls.layout("item").unwrap();
    assert!(item.fields.iter().map(|(name, _)| *name).eq(["e", "r", "x", "root"]));
    for m in 0..=8 {
        for n in 0..=66 {
            let (numbers, layout) = ([("m", m), ("n", n)], ItemLayout { m, n });
            let place = |field| item.place(field, &of(&numbers)).unwrap();
            assert_eq!(
                [layout.e(), layout.r(), layout.x(), layout.root()],
                ["e", "r", "x", "root"].map(place),
                "m = {m}, n = {n}"
            );
            let one = &calls.part("one_item").unwrap().length;
            assert_eq!(one.bytes(&of(&numbers)), Some(layout.bytes()));
            assert_eq!(layout.first_input().start, layout.x().start);
        }
    }
}

#[test]
fn openings() {
    let calls = Description::read(CALLS).unwrap();
    let opening = calls.layout("opening").unwrap();
    assert!(opening.fields.iter().map(|(name, _)| *name).eq(["value", "siblings"]));
    for k in 0..=300 {
        let (numbers, layout) = ([("k", k), ("t", 1)], OpeningLayout { k });
        let place = |field| opening.place(field, &of(&numbers)).unwrap();
        assert_eq!([layout.value(), layout.siblings()], ["value", "siblings"].map(place), "k = {k}");
        assert_eq!(calls.part("openings").unwrap().length.bytes(&of(&numbers)), Some(layout.bytes()));
    }
}
