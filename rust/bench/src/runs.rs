//! The program starts itself several times over and measures everything each time; then it shows the tables.

use crate::openssl::OpenSsl;
use crate::table::{markdown, middle, Row};
use crate::{machine, openssl_rows, rows};
use std::env;
use std::process::{Command, Stdio};

/// How many times everything is measured.
const RUNS: usize = 5;

/// A table: its head, and how the program is started for its rows.
struct Table {
    title: String,
    first: &'static str,
    argument: &'static str,
    masked: bool,
}

impl Table {
    /// The rows of one run.
    fn measure(&self) -> Vec<Row> {
        let mut child = Command::new(env::current_exe().unwrap());
        child.arg(self.argument).env_remove(openssl_rows::VARIABLE).stderr(Stdio::inherit());
        if self.masked {
            child.env(openssl_rows::VARIABLE, openssl_rows::NO_SHA);
        }
        let output = child.output().unwrap();
        assert!(output.status.success(), "{} {}", self.argument, self.title);
        String::from_utf8(output.stdout).unwrap().lines().map(Row::read).collect()
    }
}

/// That of the library, and two of OpenSSL where it is there.
fn tables() -> Vec<Table> {
    let mut tables =
        vec![Table { title: String::new(), first: "proved", argument: rows::ARGUMENT, masked: false }];
    if let Some(openssl) = OpenSsl::load() {
        for (masked, instructions) in [(false, ""), (true, " without SHA instructions")] {
            let title = openssl.version() + instructions;
            tables.push(Table { title, first: "OpenSSL", argument: openssl_rows::ARGUMENT, masked });
        }
    }
    tables
}

/// Each row of a table, with all its runs.
fn by_row(runs: Vec<Vec<Row>>) -> Vec<Vec<Row>> {
    let mut gathered = vec![vec![]; runs[0].len()];
    for run in runs {
        assert_eq!(run.len(), gathered.len());
        gathered.iter_mut().zip(run).for_each(|(row, measured)| row.push(measured));
    }
    gathered
}

/// How far the ratios of a row's runs lie apart.
fn spread(row: &[Row]) -> f64 {
    let ratios = || row.iter().map(Row::ratio);
    ratios().fold(f64::MIN, f64::max) - ratios().fold(f64::MAX, f64::min)
}

pub fn print_tables() {
    let tables = tables();
    let mut runs = vec![vec![]; tables.len()];
    for run in 1..=RUNS {
        eprintln!("run {run} of {RUNS}");
        runs.iter_mut().zip(&tables).for_each(|(rows, table)| rows.push(table.measure()));
    }
    println!("{}\n", machine::description());
    let mut apart: Vec<(f64, String)> = vec![];
    for (table, runs) in tables.iter().zip(runs) {
        let gathered = by_row(runs);
        apart.extend(gathered.iter().map(|row| (spread(row), row[0].name.clone())));
        let rows: Vec<Row> = gathered.into_iter().map(middle).collect();
        println!("{}", markdown(&table.title, table.first, &rows));
    }
    if tables.len() == 1 {
        println!("OpenSSL is not measured: libcrypto.so.3 (Debian: libssl3) is not there");
    }
    apart.sort_by(|a, b| b.0.total_cmp(&a.0));
    let [most, next, ..] = &apart[..] else { return };
    println!(
        "The ratios of a row's {RUNS} runs differ by up to {:.2} ({}), of all other rows by up to {:.2}",
        most.0, most.1, next.0
    );
}
