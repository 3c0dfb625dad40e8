//! Rows of the benchmark: two times of one run, and how a table shows them.

use crate::measure::{best, calls_of_a_round};
use std::fmt::Debug;

/// The rounds of a row in one run of the program.
pub const ROUNDS: usize = 100;

/// A row that is to be measured.
pub struct Line<'a> {
    pub name: &'a str,
    pub rounds: usize,
}

impl Line<'_> {
    /// Measures the row, and writes it as a line. A call does `steps` steps. Both results agree.
    pub fn compare<T: PartialEq + Debug>(
        &self,
        steps: u32,
        mut first: impl FnMut() -> T,
        mut plain: impl FnMut() -> T,
    ) {
        let Line { name, rounds } = self;
        assert_eq!(first(), plain(), "{name}");
        let calls = calls_of_a_round(&mut first);
        let (first, plain) = best(*rounds, calls, first, plain);
        let nanoseconds = |seconds: f64| 1e9 * seconds / steps as f64;
        println!("{name}\t{}\t{}", nanoseconds(first), nanoseconds(plain));
    }
}

/// A row of one run. The times are nanoseconds, the second that of plain Rust.
#[derive(Clone, Debug, PartialEq)]
pub struct Row {
    pub name: String,
    pub first: f64,
    pub plain: f64,
}

impl Row {
    /// Reads a line that `compare` wrote.
    pub fn read(line: &str) -> Row {
        let [name, first, plain] = line.split('\t').collect::<Vec<_>>().try_into().expect(line);
        Row { name: name.into(), first: first.parse().expect(line), plain: plain.parse().expect(line) }
    }

    /// That of the times as they are shown.
    pub fn ratio(&self) -> f64 {
        rounded(self.first).parse::<f64>().unwrap() / rounded(self.plain).parse::<f64>().unwrap()
    }
}

/// Of the same row in several runs, an odd number of them, the one with the middle ratio.
pub fn middle(mut rows: Vec<Row>) -> Row {
    assert!(rows.iter().all(|row| row.name == rows[0].name));
    rows.sort_by(|a, b| a.ratio().total_cmp(&b.ratio()));
    rows.swap_remove(rows.len() / 2)
}

/// A table in Markdown. Its head has what the rows are about, and whose times stand first.
pub fn markdown(title: &str, first: &str, rows: &[Row]) -> String {
    let head = [title, &format!("{first}, ns"), "plain, ns", "ratio"].map(String::from);
    let cells = rows
        .iter()
        .map(|row| [row.name.clone(), grouped(row.first), grouped(row.plain), format!("{:.2}", row.ratio())]);
    let lines: Vec<[String; 4]> = [head].into_iter().chain(cells).collect();
    let width: [usize; 4] =
        std::array::from_fn(|i| lines.iter().map(|line| line[i].len()).max().unwrap_or(0));
    let mut text: Vec<String> = lines
        .iter()
        .map(|[name, first, plain, ratio]| {
            let [a, b, c, d] = width;
            format!("| {name:<a$} | {first:>b$} | {plain:>c$} | {ratio:>d$} |\n")
        })
        .collect();
    text.insert(1, "|---|---|---|---|\n".into());
    text.concat()
}

/// To a thousandth below 10, to a tenth below 1,000, else whole.
fn rounded(number: f64) -> String {
    let places = if number < 10.0 {
        3
    } else if number < 1000.0 {
        1
    } else {
        0
    };
    format!("{number:.places$}")
}

/// The same, with a comma between thousands.
fn grouped(number: f64) -> String {
    let mut digits = rounded(number);
    let mut at = digits.find('.').unwrap_or(digits.len());
    while at > 3 {
        at -= 3;
        digits.insert(at, ',');
    }
    digits
}
