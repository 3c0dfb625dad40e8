//! Reads a sheet, folds all its items, up to 8 at a time, and compares the items that the verdicts cover with the
//! statements that were expected. A sheet alone cannot say that it is whole: who drops a pair and counts the rest writes a
//! sheet that is accepted. So the expected statements come from the ledger, and not from whoever wrote the sheet.
//!
//! `cargo run --release --offline -p lomvuze --example fold_sheet -- SHEET --expected LIST`
//!
//! An item is folded where it is fresh, its root is that of its witness, and it holds. Its r is drawn here, from its root
//! and its x: the one on the sheet is that of whoever wrote it. A root of zeros is one left open, and becomes that of the
//! witness. The circuit on the sheet is the writer's own too, and in no draw: its digest is printed, and compared where one
//! is given.
//!
//! The output for two sheets of `examples/sheets` is in `printed.expected` and `twenty.expected`. Options and exit statuses
//! are in what `--help` prints:

const HELP: &str = "\
usage: fold_sheet SHEET [--expected LIST] [--expected-count N] [--circuit-digest HEX] [--circuit-file OUT]

Folds all items of SHEET (docs/SHEETS.md), up to 8 at a time, verifies each fold, decides its new item, and compares the items that these
verdicts cover with what was expected.

  --expected LIST       LIST has a line for each statement: the numbers of its x, the leading 1 among them, with tabs or blanks between
                        them; # begins a comment. For each line one item has to be covered, and no other item.
  --expected-count N    N items with N different x have to be covered. Whether they are the expected ones, a count does not say: a
                        statement in the place of another is not found. Where equal statements are expected, LIST has them.
  --circuit-digest HEX  The SHA-256 digest of the circuit that was agreed on. Over another circuit nothing is folded.
  --circuit-file OUT    Writes the bytes of the circuit's digest to OUT; `sha256sum OUT` prints it too.
  --help                Prints this.

A root of zeros on the sheet is one left open: it becomes that of the item's witness, and the item's line says so.

The circuit's digest, which is printed, is over these bytes: the byte 6; m, n and k; and for each of the lists A, B and C the count of its
entries, and its entries as the calls take them: row, column and value. Numbers have four bytes, lowest first.

exit status:
  0  every expected statement is covered, no more and no fewer (where N alone is given: N different statements, whichever they are)
  1  the sheet is refused, an item on it is not covered, an expected statement is missing, or an item is covered that nobody expected
  2  the arguments are wrong, a file cannot be read or written, or a line of LIST is no x of the sheet's n numbers
  3  every item on the sheet is covered, but nothing says what was expected: whether something is missing cannot be told
  4  the circuit is not that of --circuit-digest

Covered is not true: behind each accepted fold stands at how many challenges a list with a false item can pass.
";

mod circuit;
mod expected;
mod folding;
mod options;
mod sha256;

use circuit::hex;
use expected::{Ending, Expected, Status};
use lomvuze::{read_sheet, Sheet, MAX_SHEET};
use options::{Asked, Options};
use std::ffi::OsStr;
use std::fs::File;
use std::io::{self, Read};
use std::process::ExitCode;

fn main() -> ExitCode {
    let ran = match options::read(std::env::args_os().skip(1)) {
        Ok(Asked::Help) => {
            print!("{HELP}");
            return ExitCode::SUCCESS;
        }
        Ok(Asked::Run(options)) => run(&options),
        Err(why) => Err(format!("{why}\n{}\n--help says more", HELP.lines().next().unwrap_or_default())),
    };
    match ran {
        Ok(Ending(status, words)) => {
            println!("result: {words}");
            ExitCode::from(status as u8)
        }
        Err(why) => {
            eprintln!("fold_sheet: {why}");
            ExitCode::from(2)
        }
    }
}

/// Reads, folds and compares; or says why there is nothing to compare.
fn run(options: &Options) -> Result<Ending, String> {
    let text = sheet_text(&options.sheet).map_err(|why| cannot_be_read(&options.sheet, &why))?;
    let expected = Expected::read(options)?;
    let sheet = match read_sheet(&text) {
        Ok(sheet) => sheet,
        Err(refusal) => {
            println!("sheet: {}", folding::Why::from(refusal).0);
            return Ok(Ending(Status::Differs, "the sheet is refused, and nothing of it is covered".into()));
        }
    };
    let Sheet { sizes, circuit, items, .. } = &sheet;
    println!("sheet: m = {}, n = {}, k = {}, items = {}", sizes.m, sizes.n, sizes.k, items.len());
    expected.fits(sizes.n as usize)?;

    let bytes = circuit::bytes(*sizes, circuit);
    let digest = sha256::digest(&bytes);
    let compared = match options.circuit_digest {
        None => "compared with none (--circuit-digest)",
        Some(agreed) if agreed == digest => "which is the agreed one",
        Some(_) => "which is not the agreed one",
    };
    println!("circuit: SHA-256 = {}, {compared}", hex(&digest));
    if let Some(name) = &options.circuit_file {
        std::fs::write(name, &bytes).map_err(|why| format!("{} cannot be written: {why}", name.display()))?;
    }
    if options.circuit_digest.is_some_and(|agreed| agreed != digest) {
        let words = "the circuit is not the agreed one, and nothing is folded over it";
        return Ok(Ending(Status::OtherCircuit, words.into()));
    }
    Ok(expected.compare(&folding::cover(sheet)))
}

/// The text of a sheet. One byte more than a sheet may have is enough to have it refused.
fn sheet_text(name: &OsStr) -> io::Result<Vec<u8>> {
    let mut text = vec![];
    File::open(name)?.take(MAX_SHEET as u64 + 1).read_to_end(&mut text)?;
    Ok(text)
}

fn cannot_be_read(name: &OsStr, why: &io::Error) -> String {
    format!("{} cannot be read: {why}", name.display())
}
