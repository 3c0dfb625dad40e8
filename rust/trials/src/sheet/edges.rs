//! The edges of the checks of a sheet, check by check, the order of the checks, and sheets with chosen checks that fail. Each
//! is a function of the reader that is tested; `sheet_edge_tests!` makes a test of each.

pub mod all_checks;
pub mod contents;
pub mod leading_one;
pub mod lines;
pub mod listing;
pub mod sizes;

use super::Buffers;
use crate::Library;
use lomvuze_reference::sheet::{Pair, Reading, Sheet};

/// An implementation's reader of sheets, and its listing of their claims.
pub struct Reader {
    pub library: Library,
    pub listing: fn(&[u8]) -> Vec<u8>,
}

impl Reader {
    /// Reads a sheet into buffers. A refusal leaves the array of sizes and counts as it was.
    pub fn read(&self, buffers: &mut Buffers, sheet: &[u8]) -> Reading {
        let held = [0xAAAA_AAAA; 7];
        let (mut sizes, [a, b, c, items, wits]) = (held, &mut buffers.0);
        let answer = self.library.read_sheet(sheet, a, b, c, items, wits, &mut sizes);
        if answer != 0 {
            assert_eq!(sizes, held, "a refusal wrote sizes");
            return Reading { answer, ..Reading::default() };
        }
        let [m, n, k, a, b, c, pairs] = sizes;
        Reading { answer, m, n, k, a, b, c, pairs }
    }
}

/// The answer to a sheet, and what it leaves in buffers that fit. A refusal writes nothing, and the listing has its number
/// alone.
fn read(by: &Reader, text: &[u8]) -> (Reading, Buffers) {
    let fresh = Buffers::new(Buffers::LENGTHS);
    let mut buffers = fresh.clone();
    let reading = by.read(&mut buffers, text);
    let answer = reading.answer;
    if answer != 0 {
        assert!(buffers == fresh, "answer {answer} wrote");
        assert_eq!((by.listing)(text), format!("refused\t{answer}\n").into_bytes());
    }
    (reading, buffers)
}

fn answer(by: &Reader, text: &[u8]) -> u32 {
    read(by, text).0.answer
}

/// The sheet is accepted, and all that it says is read.
fn is_read(by: &Reader, says: &Sheet, text: &[u8]) {
    let mut expected = Buffers::new(Buffers::LENGTHS);
    let reading = expected.put(says);
    let read = read(by, text);
    assert_eq!(read.0, reading);
    assert!(read.1 == expected, "other bytes");
}

// ---- The sheet that the scope paper prints

const PRINTED: &str = "\
size→0→2→2
a→0→2→1
b→0→3→1
c→0→1→1
item→0→1→6→0..0
wit→2→3
item→0→1→21→0..0
wit→4→5
end→2
";

/// The text with → for a tab and 0..0 for sixty-four zeros.
fn text(sheet: &str) -> Vec<u8> {
    sheet.replace('→', "\t").replace("0..0", &"0".repeat(64)).into_bytes()
}

pub(super) fn printed() -> Sheet {
    let pair = |x: u32, w: [u32; 2]| Pair { numbers: vec![0, 1, x], root: [0; 32], witness: w.to_vec() };
    Sheet {
        size: [0, 2, 2],
        a: vec![[0, 2, 1]],
        b: vec![[0, 3, 1]],
        c: vec![[0, 1, 1]],
        pairs: vec![pair(6, [2, 3]), pair(21, [4, 5])],
        end: 2,
    }
}

/// The answer to the printed sheet with another text in the place of one.
fn changed(by: &Reader, from: &str, to: &str) -> u32 {
    assert_eq!(PRINTED.matches(from).count(), 1, "{from}");
    answer(by, &text(&PRINTED.replace(from, to)))
}

/// A sheet of these sizes, whatever they are, with first inputs 1 and all other elements 0.
fn zeros(m: u32, n: u32, k: u32, pairs: usize) -> Sheet {
    let numbers = (0..1 + m + n).map(|i| (i == 1 + m) as u32).collect();
    let pair = Pair { numbers, root: [7; 32], witness: vec![0; k as usize] };
    Sheet { size: [m, n, k], a: vec![], b: vec![], c: vec![], pairs: vec![pair; pairs], end: pairs as u32 }
}
