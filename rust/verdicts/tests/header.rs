//! The calls, of which this crate's declarations are made, are described as `include/lomvuze.h` declares them: the same names,
//! with the same type of answer and the same arguments in the same order.

use lomvuze_calls::description::{Call, Description, Formula, Length};
use lomvuze_calls::CALLS;
use std::collections::BTreeMap;

const HEADER: &str = include_str!("../../../include/lomvuze.h");

/// The type of a call's answer, and its arguments, as C writes them.
type Prototype = (String, Vec<String>);

/// A header without comments and lines of the preprocessor.
fn declarations(header: &str) -> String {
    let mut text = String::new();
    for part in header.split("/*") {
        text += part.split_once("*/").map_or(part, |(_, behind)| behind);
    }
    text.lines().filter(|line| !line.starts_with('#')).collect::<Vec<_>>().join(" ")
}

/// The prototypes of a header whose answer is a number: what stands before the name is a type such as `uint32_t`.
fn prototypes(header: &str) -> BTreeMap<String, Prototype> {
    let text = declarations(header);
    let prototypes = text.split(';').filter_map(|statement| {
        let (before, prototype) = statement.split_once(" lomvuze_")?;
        let answer = before.split_whitespace().last().filter(|word| word.ends_with("_t"))?;
        let (name, arguments) = prototype.trim_end().strip_suffix(')')?.split_once('(')?;
        let words = |argument: &str| argument.split_whitespace().collect::<Vec<_>>().join(" ");
        Some((format!("lomvuze_{name}"), (answer.to_string(), arguments.split(',').map(words).collect())))
    });
    prototypes.collect()
}

/// The arguments of a call, as C writes them.
fn arguments(calls: &Description, call: &Call) -> Vec<String> {
    let buffer = |kind: &str, name: &str| vec![format!("{kind} *{name}"), format!("size_t {name}_len")];
    let mut all: Vec<String> = call.numbers.iter().map(|name| format!("uint32_t {name}")).collect();
    all.extend(call.inputs.iter().flat_map(|input| buffer("const uint8_t", input.name)));
    all.extend(call.outputs.iter().flat_map(|output| match &calls.part(output.part).unwrap().length {
        Length::Numbers(Formula::Constant(count)) => vec![format!("uint32_t {}[{count}]", output.name)],
        _ => buffer("uint8_t", output.name),
    }));
    all
}

/// The calls as they are described.
fn described() -> BTreeMap<String, Prototype> {
    let calls = Description::read(CALLS).unwrap();
    let prototype = |call: &Call| (format!("uint{}_t", call.bits), arguments(&calls, call));
    calls.calls.iter().map(|call| (format!("lomvuze_{}", call.name), prototype(call))).collect()
}

#[test]
fn described_as_in_the_header() {
    assert_eq!(described(), prototypes(HEADER));
    assert!(described().len() >= 12);
    let (answer, _) = &described()["lomvuze_verify"];
    assert_eq!(answer, "uint64_t");
}

/// A header with another type of one answer, another name or another argument is told from the description.
#[test]
fn changed_headers() {
    let changes = [
        ("uint64_t lomvuze_verify(", "uint32_t lomvuze_verify("),
        ("uint64_t lomvuze_verify(", "int64_t lomvuze_verify("),
        ("uint32_t lomvuze_decide(", "uint64_t lomvuze_decide("),
        ("uint32_t lomvuze_encode(", "void lomvuze_encode("),
        ("uint32_t lomvuze_open(", "uint32_t lomvuze_opened("),
        ("const uint8_t *new_item, size_t new_item_len", "uint8_t *new_item, size_t new_item_len"),
        ("uint8_t *seed_out, size_t seed_out_len", "const uint8_t *seed_out, size_t seed_out_len"),
    ];
    for (before, after) in changes {
        let changed = HEADER.replacen(before, after, 1);
        assert!(changed != HEADER, "the header has no {before}");
        assert!(described() != prototypes(&changed), "not noticed: {after}");
    }
}
