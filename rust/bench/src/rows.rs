//! The rows of the library: the layers, the calls at the greatest sizes, and the sheet reader, each beside plain Rust with the
//! same algorithm. Plain Rust hashes one message at a time, also where the proved library builds a tree.

use crate::plain::calls;
use crate::{layers, table::Line};
use lomvuze_reference::sheet::{write, MOST_BYTES};
use lomvuze_trials::sheet::{of_length, Buffers, Shape, GREATEST};
use lomvuze_trials::{library, points, Honest, Library, Name, Random};
use lomvuze_verdicts as verdicts;
use std::hint::black_box;

/// The argument with which the program measures these rows, once.
pub const ARGUMENT: &str = "library";

/// A row.
pub enum Row {
    /// A layer: its name, and what compares it.
    Layer(&'static str, fn(&Line)),
    /// A call, with so many positions, where it takes some.
    Call(Name, Option<usize>),
    /// The same with 256 points that are lent: then codewords are worked out by sums.
    Lent(Name, Option<usize>),
    /// Sheets of a shape, and what is said of it.
    Sheet(&'static str, Shape),
}
use Row::{Call, Layer, Lent, Sheet};

/// All rows, in the table's order. A call gets one here, and one with lent points where it takes points.
pub const ROWS: [Row; 34] = [
    Layer("SHA-256 of 65 bytes", layers::short_hash),
    Layer("SHA-256 of 1 MiB", layers::long_hash),
    Layer("running hash of 65 bytes", layers::short_running_hash),
    Layer("running hash of 1 MiB", layers::long_running_hash),
    Layer("65 bytes, four side by side: one of them", layers::side_by_side),
    Layer("field product", layers::product),
    Layer("field sum", layers::sum),
    Layer("codeword at k = 64", layers::codeword),
    Layer("codeword by sums, k = 64", layers::codeword_by_sums),
    Layer("tree over 256 leaves, its root", layers::root),
    Layer("tree over 256 leaves, an opening", layers::opening),
    Call(Name::Encode, None),
    Call(Name::Cast, None),
    Call(Name::Quotient, None),
    Call(Name::Fold, None),
    Call(Name::Open, Some(64)),
    Call(Name::Open, Some(256)),
    Call(Name::Interleave, Some(256)),
    Call(Name::Verify, Some(64)),
    Call(Name::Verify, Some(256)),
    Call(Name::Decide, None),
    Call(Name::DrawChallenge, None),
    Call(Name::DrawPositions, Some(64)),
    Call(Name::DrawPositions, Some(256)),
    Call(Name::DrawR, None),
    Lent(Name::Encode, None),
    Lent(Name::Cast, None),
    Lent(Name::Quotient, None),
    Lent(Name::Fold, None),
    Lent(Name::Open, Some(64)),
    Lent(Name::Open, Some(256)),
    Lent(Name::Decide, None),
    Sheet("3,072 entries, 64 pairs", GREATEST),
    Sheet("24 entries, 40 pairs, long numbers", Shape { entries: [8; 3], pairs: 40, ..GREATEST }),
];

pub const PROVED: Library = library!(verdicts);

pub const PLAIN: Library = library!(calls);

/// Compares and measures all rows, with so many rounds each.
pub fn measure(rounds: usize) {
    let mut random = Random::new(1);
    let list = Honest::greatest(&mut random);
    let lent = list.clone().lent(points::different(&mut random, 64));
    for row in ROWS {
        match row {
            Layer(name, compare) => compare(&Line { name, rounds }),
            Call(name, t) => compare_call(rounds, &call_row(name, t), name, &list, t),
            Lent(name, t) => compare_call(rounds, &(call_row(name, t) + ", lent points"), name, &lent, t),
            Sheet(kind, shape) => compare_sheet(rounds, kind, &shape),
        }
    }
}

fn call_row(name: Name, t: Option<usize>) -> String {
    let positions = t.map_or(String::new(), |t| format!(", t = {t}"));
    format!("`lomvuze_{}`{positions}", name.exported())
}

/// A call that is accepted, for an honest list. Answers and all buffers agree.
fn compare_call(rounds: usize, row: &str, name: Name, list: &Honest, t: Option<usize>) {
    let call = lomvuze_trials::Call::over(&mut Random::new(2), name, list.clone(), t.unwrap_or(1));
    let (mut by_proved, mut by_plain) = (call.clone(), call);
    assert_eq!(by_proved.run(&PROVED), by_proved.accepted(), "{row}");
    assert_eq!(by_plain.run(&PLAIN), by_plain.accepted(), "{row}");
    assert!(by_proved == by_plain, "{row}");
    let proved = || black_box(&mut by_proved).run(&PROVED);
    Line { name: row, rounds }.compare(1, proved, || black_box(&mut by_plain).run(&PLAIN));
}

type ReadSheet = fn(&[u8], &mut [u8], &mut [u8], &mut [u8], &mut [u8], &mut [u8], &mut [u32; 7]) -> u32;

/// The answer of a reader, and the sizes and counts that it writes.
pub fn read_sheet(by: ReadSheet, sheet: &[u8], buffers: &mut Buffers) -> (u32, [u32; 7]) {
    let (mut sizes, [a, b, c, items, wits]) = ([0; 7], &mut buffers.0);
    (by(sheet, a, b, c, items, wits, &mut sizes), sizes)
}

/// A sheet of the greatest length that is accepted. Answers, sizes and all buffers agree.
fn compare_sheet(rounds: usize, kind: &str, shape: &Shape) {
    let text = write(&of_length(&mut Random::new(1), shape, MOST_BYTES));
    let mut by_proved = Buffers::new(Buffers::LENGTHS);
    let mut by_plain = by_proved.clone();
    let proved = read_sheet(verdicts::read_sheet, &text, &mut by_proved);
    assert_eq!(proved.0, 0, "{kind}");
    assert_eq!(read_sheet(calls::read_sheet, &text, &mut by_plain), proved, "{kind}");
    assert!(by_proved == by_plain, "{kind}");
    Line { name: &format!("`lomvuze_read_sheet`, 60,000 bytes: {kind}"), rounds }.compare(
        1,
        || read_sheet(verdicts::read_sheet, black_box(&text), &mut by_proved),
        || read_sheet(calls::read_sheet, black_box(&text), &mut by_plain),
    );
}
