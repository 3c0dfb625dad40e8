//! Refusals say what the C header and `lomvuze_strerror` say of the same answers.

use lomvuze::Refusal;
use std::collections::BTreeMap;
use std::error::Error;

const HEADER: &str = include_str!("../../../include/lomvuze.h");
const SENTENCES: &str = include_str!("../../../c/lomvuze.c");
const REFUSALS: &str = include_str!("../src/refusal.rs");

fn between<'a>(text: &'a str, start: &str, end: &str) -> &'a str {
    text.split_once(start).unwrap().1.split_once(end).unwrap().0
}

/// The words of a comment.
fn words(comment: &str) -> String {
    comment.split_whitespace().filter(|word| !["*", "///"].contains(word)).collect::<Vec<_>>().join(" ")
}

/// The header's answers: name, number and comment.
fn answers() -> Vec<(&'static str, u32, String)> {
    let answers = between(HEADER, "enum lomvuze_answer {", "};").split("/*").skip(1);
    answers
        .map(|answer| {
            let (comment, answer) = answer.split_once("*/").unwrap();
            let (name, number) = answer.trim().trim_end_matches(',').split_once(" = ").unwrap();
            (name, number.parse().unwrap(), words(comment))
        })
        .collect()
}

#[test]
fn numbers() {
    let of_header: Vec<u32> = answers().iter().map(|(_, number, _)| *number).collect();
    let of_refusals: Vec<u32> = Refusal::ALL.iter().map(|refusal| refusal.number()).collect();
    assert_eq!(of_refusals, (1..=13).collect::<Vec<_>>());
    assert_eq!(of_header, of_refusals);
    for number in (0..20).chain([u32::MAX]) {
        let refusal = Refusal::try_from(number);
        assert_eq!(refusal.is_ok(), of_header.contains(&number));
        assert_eq!(refusal.map_or(number, u32::from), number);
    }
}

/// The sentences are those of `lomvuze_strerror`.
#[test]
fn sentences() {
    for (refusal, (name, ..)) in Refusal::ALL.iter().zip(answers()) {
        let meaning = between(SENTENCES, &format!("case {name}: return \""), "\";");
        let error: Box<dyn Error> = (*refusal).into();
        assert_eq!(error.to_string(), meaning);
    }
}

/// The comments are those of the header.
#[test]
fn comments() {
    let variants = between(REFUSALS, "pub enum Refusal {", "\n}").split("\n\n");
    let comments: BTreeMap<u32, String> = variants
        .map(|variant| {
            let (comment, variant) = variant.trim().rsplit_once('\n').unwrap();
            let number = variant.trim_end_matches(',').split_once(" = ").unwrap().1;
            (number.parse().unwrap(), words(comment))
        })
        .collect();
    assert_eq!(comments.len(), 13);
    for (_, number, comment) in answers() {
        assert_eq!(comments[&number], comment);
    }
}
