//! The crate's calls beside the library's own, on random calls and sheets, honest and damaged, and at the edges
//! of the checks: the same answers, and the same bytes.
//!
//! `cargo test --release --offline -p lomvuze --test raw -- --nocapture` prints how many calls had which verdict, and how
//! many sheets which answer.

use lomvuze::{Positions, Sizes, MAX_SHEET};
use lomvuze_reference::sheet::{write, Reading};
use lomvuze_trials::sheet::damage::{damaged, failing, junk};
use lomvuze_trials::sheet::edges::Reader;
use lomvuze_trials::sheet::{accepted, of_length, Buffers, Shape, GREATEST};
use lomvuze_trials::{library, points, Call, Chain, Comparison, Honest, Library, Random, NAMES};
use lomvuze_verdicts as verdicts;
use std::collections::BTreeMap;

mod calls;
mod layout;
mod sheet;

const CRATE: Library = library!(calls);
const LIBRARY: Library = library!(verdicts);

/// The crate's reader of sheets. It has no listing; the reference has one.
const READER: Reader = Reader { library: CRATE, listing: lomvuze_reference::sheet::listing };

mod edges {
    use super::CRATE;

    lomvuze_trials::edge_tests!(CRATE);
}

mod sheet_edges {
    use super::READER;

    lomvuze_trials::sheet_edge_tests!(READER);
}

fn comparison() -> Comparison {
    Comparison::new(&CRATE, &LIBRARY)
}

/// 3,000 calls of each name, of which 50 at least give each verdict.
#[test]
fn random_calls() {
    for name in NAMES {
        comparison().random_calls(name, 3000, 50);
    }
}

/// The greatest sizes, 256 points, 1,024 entries in each list, and the greatest count of positions.
#[test]
fn greatest_sizes() {
    let mut random = Random::new(1);
    for name in NAMES {
        let mut comparison = comparison();
        let points = points::different(&mut random, 64);
        let list = Honest::greatest(&mut random).lent(points);
        let call = Call::over(&mut random, name, list, 256);
        comparison.compare_checks(&mut random, &call);
        comparison.finish(name, 1);
    }
}

/// The lengths that sizes give are those of the library's buffers.
#[test]
fn lengths() {
    let mut random = Random::new(2);
    for _ in 0..100 {
        let list = Honest::of_any_size(&mut random);
        let chain = Chain::new(&LIBRARY, &list, list.l, &[0, 1, 2]);
        let (sizes, l) = (Sizes { m: list.m, n: list.n, k: list.k }, list.l as usize);
        assert!(list.points.is_empty() || sizes.points_bytes() == list.points.len());
        assert_eq!(sizes.items_bytes(l), list.items.len());
        assert_eq!(sizes.item_bytes(), chain.new_item.len());
        assert_eq!(sizes.witnesses_bytes(l), list.witnesses.len());
        assert_eq!(sizes.witness_bytes(), chain.new_witness.len());
        assert_eq!(sizes.quotient_bytes(l), chain.quotient.len());
        assert_eq!(sizes.all_openings_bytes(l, 3), chain.openings.len());
    }
}

/// The blocks that sizes give are those that an accepted fold takes; outside the limits there are none.
#[test]
fn blocks() {
    let mut random = Random::new(5);
    for k in [2, 4, 8, 16, 32, 64] {
        let sizes = Sizes { m: 1, n: 2, k };
        for l in [1, 2, 5, 8] {
            let list = Honest::random(&mut random, 1, 2, k, l);
            for t in [1, 4 * k] {
                let chain = Chain::new(&LIBRARY, &list, l, &vec![k; t as usize]);
                let planned = sizes.verify_blocks(l as usize, t as usize);
                assert_eq!(chain.verify(&CRATE, &list), 64 * planned, "k = {k}, l = {l}, t = {t}");
            }
        }
        let counts = [(0, 1), (9, 1), (1, 0), (1, 4 * k as usize + 1), (usize::MAX, usize::MAX)];
        assert!(counts.iter().all(|(l, t)| sizes.verify_blocks(*l, *t) == 0), "k = {k}");
    }
    for k in [0, 1, 3, 63, 65, 128, 1 << 31, u32::MAX] {
        assert_eq!(Sizes { m: 1, n: 2, k }.verify_blocks(1, 1), 0, "k = {k}");
    }
}

/// Chains with drawn challenges and 4k drawn positions, of which k at least are different: the same bytes, and both
/// accept.
#[test]
fn drawn_chains() {
    let mut random = Random::new(6);
    for _ in 0..50 {
        let list = Honest::of_any_size(&mut random);
        let (seed, chain) = Chain::drawn(&CRATE, &list, 4 * list.k);
        assert!(Chain::drawn(&LIBRARY, &list, 4 * list.k) == (seed, chain.clone()), "{list:?}");
        chain.assert_accepted(&CRATE, &list);
        chain.assert_accepted(&LIBRARY, &list);
        let positions = Positions::from_bytes(&chain.positions).unwrap();
        assert!(positions.count_different() >= list.k as usize, "{positions}");
    }
}

// ---- Sheets

/// Reads a sheet by both, and compares.
fn compare_sheet(text: &[u8]) -> u32 {
    let mut by_crate = Buffers::new(Buffers::LENGTHS);
    let mut by_library = by_crate.clone();
    let Reading { answer, m, n, k, a, b, c, pairs } = READER.read(&mut by_crate, text);
    let (mut sizes, [a_out, b_out, c_out, items, wits]) = ([0; 7], &mut by_library.0);
    let by_library_answer = verdicts::read_sheet(text, a_out, b_out, c_out, items, wits, &mut sizes);
    assert_eq!(answer, by_library_answer, "{}", text.escape_ascii());
    assert_eq!([m, n, k, a, b, c, pairs], sizes, "{}", text.escape_ascii());
    assert!(by_crate == by_library, "other bytes: {}", text.escape_ascii());
    answer
}

/// Sheets that are accepted, that fail a check, with random changes, and texts that are no sheets: 500 at least
/// give each answer.
#[test]
fn random_sheets() {
    let mut random = Random::new(3);
    let mut answers = BTreeMap::new();
    for i in 0..1000 {
        let shape = if i % 50 == 0 { Shape::any(&mut random) } else { Shape::small(&mut random) };
        let says = accepted(&mut random, &shape);
        let mut texts = vec![write(&says), junk(&mut random)];
        texts.extend([1, 2, 3, 4, 13].map(|check| failing(&mut random, &says, &[check])));
        texts.extend((0..4).map(|_| damaged(&mut random, &says)));
        for text in texts {
            *answers.entry(compare_sheet(&text)).or_insert(0) += 1;
        }
    }
    println!("{} sheets, by answer {answers:?}", answers.values().sum::<usize>());
    assert!(answers.keys().eq(&[0, 1, 2, 3, 4, 13]), "{answers:?}");
    assert!(answers.values().all(|count| *count >= 500), "{answers:?}");
}

/// All lists and all pairs full, and a text of the greatest length.
#[test]
fn greatest_sheets() {
    let mut random = Random::new(4);
    for (length, answer) in [(MAX_SHEET, 0), (MAX_SHEET + 1, 1)] {
        assert_eq!(compare_sheet(&write(&of_length(&mut random, &GREATEST, length))), answer);
    }
}
