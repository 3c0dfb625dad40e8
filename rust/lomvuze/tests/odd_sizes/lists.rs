//! Lists of other lengths.

use crate::arguments::{by, by_sizes, change, refusals, Arguments};
use crate::arguments::{
    TAKE_CIRCUIT, TAKE_ITEMS, TAKE_NEW_ITEM, TAKE_OPENINGS, TAKE_POINTS, TAKE_POSITIONS, TAKE_WITNESS,
    TAKE_WITNESSES,
};
use lomvuze::{Entry, Item, Points, Refusal, MAX_ENTRIES, MAX_L};

/// A list that is one too long, one too short, empty, or very long.
fn lengths<T: Clone>(list: &[T]) -> [Vec<T>; 4] {
    let repeated = |count| list.iter().cycle().take(count).cloned().collect();
    [repeated(list.len() + 1), repeated(list.len() - 1), vec![], repeated(1 << 18)]
}

#[test]
fn lists_of_numbers() {
    let honest = Arguments::new().unwrap();
    for points in lengths(&honest.points).into_iter().filter(|points| !points.is_empty()) {
        assert_eq!(refusals(|all| all.points = points.clone().into()), by_sizes(TAKE_POINTS));
    }
    for r in lengths(&honest.r) {
        assert_eq!(refusals(|all| all.r = r.clone().into()), by_sizes(&["cast"]));
    }
    for x in lengths(&honest.x) {
        assert_eq!(refusals(|all| all.x = x.clone().into()), by_sizes(&["cast", "draw_r"]));
    }
    for witness in lengths(&honest.witness) {
        assert_eq!(refusals(|all| all.witness = witness.clone().into()), by_sizes(TAKE_WITNESS));
    }
    for quotient in lengths(&honest.folded.quotient) {
        assert_eq!(
            refusals(|all| all.folded.quotient = quotient.clone().into()),
            by_sizes(&["verify", "draw_challenge"])
        );
    }
    for witness in lengths(&honest.folded.witness) {
        assert_eq!(refusals(|all| all.folded.witness = witness.clone().into()), by_sizes(&["decide"]));
    }
}

#[test]
fn counts_of_positions() {
    for count in [0, 17, 257, 1 << 18] {
        assert_eq!(
            refusals(|all| change(&mut all.positions, |numbers| numbers.resize(count, 0))),
            by_sizes(TAKE_POSITIONS),
            "t = {count}"
        );
    }
    // Other counts that are permitted, with openings for three.
    for count in [1, 2, 4, 16] {
        assert_eq!(
            refusals(|all| change(&mut all.positions, |numbers| numbers.resize(count, 0))),
            by_sizes(&["verify"]),
            "t = {count}"
        );
    }
}

/// Counts of points for another k, and no points: the roots are not those of the built-in ones.
#[test]
fn counts_of_points() {
    for count in [1, 4, 8, 32, 64, 256, 257] {
        let change = |all: &mut Arguments| all.points = (0..count).collect();
        assert_eq!(refusals(change), by_sizes(TAKE_POINTS), "{count} points");
    }
    assert_eq!(
        refusals(|all| all.points = Points::built_in()),
        by(Refusal::Root, &["quotient", "fold", "decide"])
    );
    assert_eq!(refusals(|all| all.points[15] = 0), by(Refusal::Points, TAKE_POINTS));
}

#[test]
fn lists_of_entries() {
    let entry = Entry { row: 0, column: 0, value: 0 };
    for count in [MAX_ENTRIES + 1, 1 << 18] {
        let long = vec![entry; count];
        assert_eq!(refusals(|all| all.circuit.a.clone_from(&long)), by_sizes(TAKE_CIRCUIT));
        assert_eq!(refusals(|all| all.circuit.b.clone_from(&long)), by_sizes(TAKE_CIRCUIT));
        assert_eq!(refusals(|all| all.circuit.c.clone_from(&long)), by_sizes(TAKE_CIRCUIT));
    }
}

#[test]
fn counts_of_items_witnesses_and_openings() {
    let honest = Arguments::new().unwrap();
    // Positions are drawn for three items and for one.
    let [longer, shorter, none, many] = lengths(&honest.items);
    for items in [longer, shorter] {
        assert_eq!(refusals(|all| all.items.clone_from(&items)), by_sizes(TAKE_ITEMS));
    }
    for items in [none, many] {
        assert_eq!(
            refusals(|all| all.items.clone_from(&items)),
            by_sizes(&[TAKE_ITEMS, &["draw_positions"]].concat())
        );
    }
    for witnesses in lengths(&honest.witnesses) {
        assert_eq!(refusals(|all| all.witnesses.clone_from(&witnesses)), by_sizes(TAKE_WITNESSES));
    }
    // Openings of two or four witnesses are put in order, as those of a fold of one or three items.
    let [longer, shorter, none, many] = lengths(&honest.openings);
    for openings in [longer, shorter] {
        assert_eq!(refusals(|all| all.openings.clone_from(&openings)), by_sizes(&["verify"]));
    }
    for openings in [none, many] {
        assert_eq!(refusals(|all| all.openings.clone_from(&openings)), by_sizes(TAKE_OPENINGS));
    }
    let nine = |all: &mut Arguments| {
        all.items = vec![all.items[0].clone(); MAX_L + 1];
        all.witnesses = vec![all.witness.clone(); MAX_L + 1];
        all.openings = vec![all.openings[0].clone(); MAX_L + 2];
        all.folded.quotient = [0; 2 * MAX_L].into();
    };
    assert_eq!(
        refusals(nine),
        by_sizes(&["quotient", "fold", "interleave", "verify", "draw_challenge", "draw_positions"])
    );
}

#[test]
fn parts_of_items_witnesses_and_openings() {
    let honest = Arguments::new().unwrap();
    for i in 0..2 {
        for r in lengths(&honest.items[i].r) {
            assert_eq!(refusals(|all| all.items[i].r = r.clone().into()), by_sizes(TAKE_ITEMS));
        }
        for x in lengths(&honest.items[i].x) {
            assert_eq!(refusals(|all| all.items[i].x = x.clone().into()), by_sizes(TAKE_ITEMS));
        }
        for witness in lengths(&honest.witnesses[i]) {
            assert_eq!(refusals(|all| all.witnesses[i] = witness.clone().into()), by_sizes(TAKE_WITNESSES));
        }
    }
    for r in lengths(&honest.folded.item.r) {
        assert_eq!(refusals(|all| all.folded.item.r = r.clone().into()), by_sizes(TAKE_NEW_ITEM));
    }
    for x in lengths(&honest.folded.item.x) {
        assert_eq!(refusals(|all| all.folded.item.x = x.clone().into()), by_sizes(TAKE_NEW_ITEM));
    }
    for i in 0..3 {
        for openings in lengths(&honest.openings[i]) {
            assert_eq!(refusals(|all| all.openings[i].clone_from(&openings)), by_sizes(TAKE_OPENINGS));
        }
        for q in 0..3 {
            for path in lengths(&honest.openings[i][q].path) {
                assert_eq!(
                    refusals(|all| all.openings[i][q].path.clone_from(&path)),
                    by_sizes(TAKE_OPENINGS)
                );
            }
        }
    }
}

// ---- Lists whose lengths differ, though their bytes in a row would be as many, or even the same

/// x gives its first number to r.
fn move_to_r(item: &mut Item) {
    let Item { r, x, .. } = item;
    change(x, |from| change(r, |to| to.push(from.remove(0))));
}

#[test]
fn numbers_at_a_neighbour() {
    assert_eq!(refusals(|all| all.items.iter_mut().for_each(move_to_r)), by_sizes(TAKE_ITEMS));
    assert_eq!(refusals(|all| move_to_r(&mut all.folded.item)), by_sizes(TAKE_NEW_ITEM));

    let witness = |all: &mut Arguments| {
        let [first, second] = &mut all.witnesses[..] else { unreachable!() };
        change(first, |from| change(second, |to| to.insert(0, from.pop().unwrap())));
    };
    assert_eq!(refusals(witness), by_sizes(TAKE_WITNESSES));

    let opening = |all: &mut Arguments| {
        let last = all.openings[0].pop().unwrap();
        all.openings[1].insert(0, last);
    };
    assert_eq!(refusals(opening), by_sizes(TAKE_OPENINGS));

    let digest = |all: &mut Arguments| {
        let last = all.openings[0][0].path.pop().unwrap();
        all.openings[1][0].path.insert(0, last);
    };
    assert_eq!(refusals(digest), by_sizes(TAKE_OPENINGS));
}
