//! What was expected, and how it differs from what is covered.

use crate::cannot_be_read;
use crate::circuit::hex;
use crate::folding::Outcome;
use crate::options::Options;
use lomvuze::{Item, PublicInputs};
use std::collections::BTreeSet;

/// The exit status, where there is something to compare.
#[derive(Clone, Copy)]
pub enum Status {
    AsExpected = 0,
    Differs = 1,
    NothingExpected = 3,
    OtherCircuit = 4,
}

/// How a comparison ends: the exit status, and the same in words.
pub struct Ending(pub Status, pub String);

/// A line of the list: its number in the file, from 1, and the statement.
struct Line {
    number: usize,
    x: PublicInputs,
}

pub struct Expected {
    list: Option<(String, Vec<Line>)>,
    count: Option<usize>,
}

impl Expected {
    pub fn read(options: &Options) -> Result<Expected, String> {
        let count = options.expected_count;
        let Some(name) = &options.expected else { return Ok(Expected { list: None, count }) };
        let bytes = std::fs::read(name).map_err(|why| cannot_be_read(name, &why))?;
        let name = name.display().to_string();
        let text = String::from_utf8(bytes).map_err(|_| format!("{name} is no text in UTF-8"))?;
        let lines = lines(&text).map_err(|why| format!("{name}, {why}"))?;
        Ok(Expected { list: Some((name, lines)), count })
    }

    /// Each line of the list has to be an x of n numbers.
    pub fn fits(&self, n: usize) -> Result<(), String> {
        let Some((name, lines)) = &self.list else { return Ok(()) };
        match lines.iter().find(|line| line.x.len() != n) {
            None => Ok(()),
            Some(Line { number, x }) => Err(format!(
                "{name}, line {number}: {} numbers, and the sheet's x has {n}, the leading 1 among them",
                x.len()
            )),
        }
    }

    /// Prints what is covered and what was expected, and compares them.
    pub fn compare<'a>(&self, outcomes: &'a [Outcome]) -> Ending {
        let of_covered = |(i, outcome): (usize, &'a Outcome)| Some((i, outcome.covered_item()?));
        let covered: Vec<(usize, &Item)> = outcomes.iter().enumerate().filter_map(of_covered).collect();
        for (i, item) in &covered {
            println!("covered: item {i}, x = {}, root = {}", item.x, hex(&item.root));
        }
        for (i, outcome) in outcomes.iter().enumerate() {
            if let Some(why) = &outcome.uncovered {
                println!("not covered: item {i}, {}", why.0);
            }
        }
        name_equal_items(&covered);
        println!("covered: {} of the {} items on the sheet", covered.len(), outcomes.len());

        let mut differences = vec![];
        if covered.len() < outcomes.len() {
            differences.push(format!("not covered on the sheet: {}", outcomes.len() - covered.len()));
        }
        if let Some((name, lines)) = &self.list {
            differences.extend(compare_list(name, lines, &covered));
        }
        if let Some(count) = self.count {
            differences.extend(compare_count(count, &covered));
        }
        self.ending(&differences)
    }

    fn ending(&self, differences: &[String]) -> Ending {
        let (status, words) = match (&self.list, self.count) {
            _ if !differences.is_empty() => {
                (Status::Differs, format!("not as expected; {}", differences.join("; ")))
            }
            (Some(_), _) => {
                (Status::AsExpected, "every expected statement is covered, no more and no fewer".into())
            }
            (None, Some(count)) => (
                Status::AsExpected,
                format!("{count} different statements are covered, as many as were expected; whether they are these, a count does not say"),
            ),
            (None, None) => (Status::NothingExpected, NOTHING_EXPECTED.into()),
        };
        Ending(status, words)
    }
}

const NOTHING_EXPECTED: &str =
    "nothing says what was expected, so whether a statement is missing cannot be told: \
    --expected LIST, made from the ledger, says it, or --expected-count N how many";

fn lines(text: &str) -> Result<Vec<Line>, String> {
    let mut lines = vec![];
    for (i, line) in text.lines().enumerate() {
        let (number, words) = (i + 1, line.split('#').next().unwrap_or_default().split_whitespace());
        let read =
            |word: &str| word.parse().map_err(|_| format!("line {number}: '{word}' is no number of 32 bits"));
        let x = words.map(read).collect::<Result<PublicInputs, String>>()?;
        match x.first() {
            None => {}
            Some(1) => lines.push(Line { number, x }),
            Some(first) => return Err(format!("line {number}: x begins with 1, and this with {first}")),
        }
    }
    Ok(lines)
}

/// Names each item that has the x or the root of an earlier one.
fn name_equal_items(covered: &[(usize, &Item)]) {
    for (j, (later, item)) in covered.iter().enumerate() {
        let earlier =
            |same: fn(&Item, &Item) -> bool| covered[..j].iter().find(|(_, other)| same(item, other));
        let named = [
            ("the same x and the same root", earlier(|a, b| a.x == b.x && a.root == b.root)),
            ("the same root, and another x", earlier(|a, b| a.root == b.root)),
            ("the same x, and another root", earlier(|a, b| a.x == b.x)),
        ];
        if let Some((what, (first, _))) = named.iter().find_map(|(what, found)| Some((what, (*found)?))) {
            println!("equal: items {first} and {later} have {what}");
        }
    }
}

/// Each line of the list takes a covered item of its own with the same x. Names lines and items that are left, and counts
/// them.
fn compare_list(name: &str, lines: &[Line], covered: &[(usize, &Item)]) -> Vec<String> {
    let (mut missing, mut unexpected): (Vec<&Line>, Vec<_>) = (lines.iter().collect(), vec![]);
    for (i, item) in covered {
        match missing.iter().position(|line| line.x == item.x) {
            Some(found) => drop(missing.remove(found)),
            None => unexpected.push((i, item)),
        }
    }
    let found = lines.len() - missing.len();
    println!("expected: {} statements by {name}, of which {found} are covered", lines.len());
    for Line { number, x } in &missing {
        println!("missing: line {number}, x = {x}");
    }
    for (i, item) in &unexpected {
        println!("not expected: item {i}, x = {}, root = {}", item.x, hex(&item.root));
    }
    let counts = [("missing", missing.len()), ("covered and not expected", unexpected.len())];
    counts.iter().filter(|(_, count)| *count > 0).map(|(what, count)| format!("{what}: {count}")).collect()
}

/// So many different statements have to be covered, each by one item.
fn compare_count(count: usize, covered: &[(usize, &Item)]) -> Option<String> {
    let different = covered.iter().map(|(_, item)| &item.x).collect::<BTreeSet<_>>().len();
    println!("expected: {count} statements, by their count alone");
    let differs = different != count || covered.len() != count;
    let words = format!(
        "{} items are covered, with {different} different statements, and not {count}",
        covered.len()
    );
    differs.then_some(words)
}
