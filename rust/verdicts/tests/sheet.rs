//! Sheets by the proved reader and by the reference: the same answer, sizes and counts, the same bytes in
//! every buffer after it, and the same listing. And the edges of the checks, by the proved reader.
//!
//! `cargo test --release --offline -p lomvuze-verdicts --test sheet -- --nocapture` prints how many sheets had
//! which answer.

use lomvuze_reference::sheet::{listing, read, write, MOST_BYTES};
use lomvuze_trials::sheet::damage::{damaged, failing, junk};
use lomvuze_trials::sheet::edges::Reader;
use lomvuze_trials::sheet::{accepted, of_length, Buffers, Shape, GREATEST};
use lomvuze_trials::{library, Library, Name, Random};
use lomvuze_verdicts as calls;
use std::collections::BTreeMap;

const PROVED: Library = library!(calls);

/// The proved reader, and the listing of the layers below it.
const READER: Reader = Reader { library: PROVED, listing: lomvuze_proved::listing };

lomvuze_trials::sheet_edge_tests!(READER);

/// Sheets that are tried, at least.
const SHEETS: usize = 120_000;

/// Sheets that give each answer, at least.
const EACH_ANSWER: usize = 1_000;

/// How many sheets had which answer.
type Answers = BTreeMap<u32, usize>;

/// Reads a sheet by both, into buffers of these lengths, and compares.
fn compare_into(lengths: [usize; 5], text: &[u8], answers: &mut Answers) -> u32 {
    let mut by_reference = Buffers::new(lengths);
    let mut by_proved = by_reference.clone();
    let reading = by_reference.read(read, text);
    assert_eq!(READER.read(&mut by_proved, text), reading, "{}", text.escape_ascii());
    assert!(by_proved == by_reference, "other bytes: {}", text.escape_ascii());
    *answers.entry(reading.answer).or_default() += 1;
    reading.answer
}

/// Reads and lists a sheet by both, and compares.
fn compare(text: &[u8], answers: &mut Answers) -> u32 {
    assert_eq!(
        (READER.listing)(text).escape_ascii().to_string(),
        listing(text).escape_ascii().to_string(),
        "{}",
        text.escape_ascii()
    );
    compare_into(Buffers::LENGTHS, text, answers)
}

/// An accepted sheet; with each check failing first, alone and together with some of the later ones; with a
/// buffer of another length; with random changes; and a text that is no sheet.
fn compare_around(random: &mut Random, shape: &Shape, answers: &mut Answers) {
    let says = accepted(random, shape);
    let text = write(&says);
    assert_eq!(compare(&text, answers), 0);
    let all = Name::ReadSheet.checks();
    for (i, check) in all.iter().enumerate() {
        let later: Vec<u32> = all[i + 1..].iter().copied().filter(|_| random.below(2) == 0).collect();
        for checks in [vec![*check], [vec![*check], later].concat()] {
            let text = failing(random, &says, &checks);
            let expected = if text.len() > MOST_BYTES { 1 } else { *check };
            assert_eq!(compare(&text, answers), expected, "{checks:?}: {}", text.escape_ascii());
        }
    }

    let mut lengths = Buffers::LENGTHS;
    let length = &mut lengths[random.below(5)];
    *length = [0, *length - 1, *length + 1, *length + 12, random.below(*length)][random.below(5)];
    assert_eq!(compare_into(lengths, &text, answers), 2);
    compare_into(lengths, &damaged(random, &says), answers);

    for _ in 0..6 {
        compare(&damaged(random, &says), answers);
    }
    compare(&junk(random), answers);
}

/// Every answer was given often, and no other one.
fn finish(answers: &Answers, each: usize) {
    println!("{} sheets, by answer {answers:?}", answers.values().sum::<usize>());
    assert!(answers.keys().eq([0].iter().chain(Name::ReadSheet.checks())), "{answers:?}");
    assert!(answers.values().all(|count| *count >= each), "{answers:?}");
}

#[test]
fn random_sheets() {
    let mut random = Random::new(1);
    let mut answers = Answers::default();
    while answers.values().sum::<usize>() < SHEETS {
        let shape = if random.below(150) == 0 { Shape::any(&mut random) } else { Shape::small(&mut random) };
        compare_around(&mut random, &shape, &mut answers);
    }
    finish(&answers, EACH_ANSWER);
}

/// All lists and all pairs full, and sheets of the greatest length.
#[test]
fn greatest_sheets() {
    let mut random = Random::new(2);
    let mut answers = Answers::default();
    for _ in 0..3 {
        compare_around(&mut random, &GREATEST, &mut answers);
    }
    for length in [MOST_BYTES - 1, MOST_BYTES, MOST_BYTES + 1] {
        let text = write(&of_length(&mut random, &GREATEST, length));
        assert_eq!(compare(&text, &mut answers), if length > MOST_BYTES { 1 } else { 0 });
        assert_eq!(compare(text.strip_suffix(b"\n").unwrap(), &mut answers), 0);
    }
    finish(&answers, 5);
}
