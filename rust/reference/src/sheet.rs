//! Sheets and the listing of their claims: the scope paper's section "The sheet and its claims listing".
//!
//! A sheet is split into lines and the lines into fields, and what they say is collected, before any size is
//! looked at.

mod listing;
mod writing;

use crate::checks::{
    check, check_circuit, check_first_inputs, element, element_bytes, item_bytes, item_length, size_k,
    size_m, size_n, Refusal, MOST_ENTRIES,
};
use crate::claims::{Circuit, Entry, Item};
use crate::field::Element;
use crate::sha256::Digest;

pub use listing::listing;
pub use writing::write;

pub const MOST_BYTES: usize = 60_000;
const MOST_PAIRS: usize = 64;

/// The length of each buffer for entries: the greatest.
pub const ENTRIES_LENGTH: usize = 12 * MOST_ENTRIES;
/// The length of the buffer for items: pairs of the largest sizes.
pub const ITEMS_LENGTH: usize = MOST_PAIRS * item_length(6, 64);
/// The length of the buffer for witnesses.
pub const WITNESSES_LENGTH: usize = MOST_PAIRS * 4 * 64;

/// What a sheet says, with any numbers of 32 bits, before checks 2, 3, 4 and 13.
#[derive(Clone, PartialEq, Debug)]
pub struct Sheet {
    /// m, n and k.
    pub size: [u32; 3],
    /// Row, column and value of each entry.
    pub a: Vec<[u32; 3]>,
    pub b: Vec<[u32; 3]>,
    pub c: Vec<[u32; 3]>,
    pub pairs: Vec<Pair>,
    /// The count of items on the last line.
    pub end: u32,
}

/// An `item` line and the `wit` line behind it.
#[derive(Clone, PartialEq, Debug)]
pub struct Pair {
    /// e, r and x.
    pub numbers: Vec<u32>,
    pub root: Digest,
    pub witness: Vec<u32>,
}

/// The result of reading: the answer, the sizes, how many entries the lists have, and how many pairs there
/// are. At a refusal all but the answer is 0.
#[derive(Clone, Copy, PartialEq, Default, Debug)]
pub struct Reading {
    pub answer: u32,
    pub m: u32,
    pub n: u32,
    pub k: u32,
    pub a: u32,
    pub b: u32,
    pub c: u32,
    pub pairs: u32,
}

// ---- Check 1: the line rules.

type Line<'a> = Vec<&'a [u8]>;

/// What a sheet says, where it keeps the line rules.
pub fn collect(sheet: &[u8]) -> Result<Sheet, Refusal> {
    check(1, sheet.len() <= MOST_BYTES)?;
    let lines: Vec<Line> = sheet
        .strip_suffix(b"\n")
        .unwrap_or(sheet)
        .split(|byte| *byte == b'\n')
        .map(|line| line.split(|byte| *byte == b'\t').collect())
        .collect();

    let mut rest = &lines[..];
    let [size] = front(&mut rest, b"size") else { return Err(1) };
    let [a, b, c] = [b"a", b"b", b"c"].map(|keyword| front(&mut rest, keyword));
    let (end, pairs) = rest.split_last().ok_or(1u32)?;
    check(1, end[0] == b"end" && pairs.len().is_multiple_of(2))?;
    Ok(Sheet {
        size: exactly(&size[1..])?,
        a: entries(a)?,
        b: entries(b)?,
        c: entries(c)?,
        pairs: pairs.chunks(2).map(|lines| pair(&lines[0], &lines[1])).collect::<Result<_, _>>()?,
        end: exactly::<1>(&end[1..])?[0],
    })
}

/// Takes off the lines at the front that have this keyword.
fn front<'a, 'b>(rest: &mut &'b [Line<'a>], keyword: &[u8]) -> &'b [Line<'a>] {
    let count = rest.iter().take_while(|line| line[0] == keyword).count();
    let (front, behind) = rest.split_at(count);
    *rest = behind;
    front
}

/// The decimal notation of a number of 32 bits.
fn number(field: &[u8]) -> Result<u32, Refusal> {
    let text = std::str::from_utf8(field).map_err(|_| 1u32)?;
    let number: u32 = text.parse().map_err(|_| 1u32)?;
    check(1, number.to_string() == text)?;
    Ok(number)
}

/// One number or more.
fn numbers(fields: &[&[u8]]) -> Result<Vec<u32>, Refusal> {
    check(1, !fields.is_empty())?;
    fields.iter().map(|field| number(field)).collect()
}

fn exactly<const COUNT: usize>(fields: &[&[u8]]) -> Result<[u32; COUNT], Refusal> {
    numbers(fields)?.try_into().map_err(|_| 1)
}

fn entries(lines: &[Line]) -> Result<Vec<[u32; 3]>, Refusal> {
    lines.iter().map(|line| exactly(&line[1..])).collect()
}

fn pair(item: &Line, wit: &Line) -> Result<Pair, Refusal> {
    check(1, item[0] == b"item" && wit[0] == b"wit")?;
    let (root_field, before) = item[1..].split_last().ok_or(1u32)?;
    Ok(Pair { numbers: numbers(before)?, root: root(root_field)?, witness: numbers(&wit[1..])? })
}

const HEXADECIMAL: &[u8; 16] = b"0123456789abcdef";

/// 64 lower-case hexadecimal digits, the higher one of each byte first.
fn root(field: &[u8]) -> Result<Digest, Refusal> {
    check(1, field.len() == 64 && field.iter().all(|byte| HEXADECIMAL.contains(byte)))?;
    let digit = |i: usize| HEXADECIMAL.iter().position(|digit| *digit == field[i]).unwrap() as u8;
    Ok(std::array::from_fn(|i| 16 * digit(2 * i) + digit(2 * i + 1)))
}

// ---- Checks 2, 3, 4 and 13.

/// The claims of a sheet that passes.
struct Claims {
    size: [u32; 3],
    circuit: Circuit,
    items: Vec<Item>,
    witnesses: Vec<Vec<Element>>,
}

/// Runs checks 1 to 4 and 13, each over the whole sheet before the next. Check 2 takes in whether the buffers have
/// their lengths.
fn accept(sheet: &[u8], lengths_fit: bool) -> Result<Claims, Refusal> {
    let Sheet { size, a, b, c, pairs, end } = collect(sheet)?;

    let (m, n, k) = (size_m(size[0])?, size_n(size[1])?, size_k(size[2])?);
    check(2, [&a, &b, &c].iter().all(|list| list.len() <= MOST_ENTRIES))?;
    check(2, (1..=MOST_PAIRS).contains(&pairs.len()))?;
    check(2, end as usize == pairs.len())?;
    check(2, pairs.iter().all(|pair| pair.numbers.len() == 1 + m + n && pair.witness.len() == k))?;
    check(2, lengths_fit)?;

    let circuit = Circuit { a: with_elements(&a)?, b: with_elements(&b)?, c: with_elements(&c)? };
    let items: Vec<Item> = pairs.iter().map(|pair| item(pair, m)).collect::<Result<_, _>>()?;
    let witnesses = pairs.iter().map(|pair| elements(&pair.witness)).collect::<Result<_, _>>()?;

    check_circuit(&circuit, m, n, k)?;
    check_first_inputs(&items)?;
    Ok(Claims { size, circuit, items, witnesses })
}

fn elements(numbers: &[u32]) -> Result<Vec<Element>, Refusal> {
    numbers.iter().map(|number| element(*number)).collect()
}

fn with_elements(list: &[[u32; 3]]) -> Result<Vec<Entry>, Refusal> {
    list.iter()
        .map(|[row, column, value]| Ok(Entry { row: *row, column: *column, value: element(*value)? }))
        .collect()
}

fn item(pair: &Pair, m: usize) -> Result<Item, Refusal> {
    let numbers = elements(&pair.numbers)?;
    let (r, x) = numbers[1..].split_at(m);
    Ok(Item { e: numbers[0], r: r.to_vec(), x: x.to_vec(), root: pair.root })
}

// ---- The reader.

/// The public call: as [`read`], with sizes and counts in an array. A refusal leaves that as it was too.
pub fn read_sheet(
    sheet: &[u8],
    a_out: &mut [u8],
    b_out: &mut [u8],
    c_out: &mut [u8],
    items_out: &mut [u8],
    wits_out: &mut [u8],
    sizes_out: &mut [u32; 7],
) -> u32 {
    let Reading { answer, m, n, k, a, b, c, pairs } = read(sheet, a_out, b_out, c_out, items_out, wits_out);
    if answer == 0 {
        *sizes_out = [m, n, k, a, b, c, pairs];
    }
    answer
}

/// Reads a sheet into buffers of the greatest lengths, from the front and without gaps; what lies beyond
/// stays as it was. Checks 1 to 4 and 13; a refusal writes nothing.
pub fn read(
    sheet: &[u8],
    a: &mut [u8],
    b: &mut [u8],
    c: &mut [u8],
    items: &mut [u8],
    wits: &mut [u8],
) -> Reading {
    let lengths_fit = [a.len(), b.len(), c.len()] == [ENTRIES_LENGTH; 3]
        && items.len() == ITEMS_LENGTH
        && wits.len() == WITNESSES_LENGTH;
    match accept(sheet, lengths_fit) {
        Err(answer) => Reading { answer, ..Reading::default() },
        Ok(Claims { size: [m, n, k], circuit, items: read_items, witnesses }) => {
            fill(a, circuit.a.iter().map(entry_bytes));
            fill(b, circuit.b.iter().map(entry_bytes));
            fill(c, circuit.c.iter().map(entry_bytes));
            fill(items, read_items.iter().map(item_bytes));
            fill(wits, witnesses.iter().map(|w| element_bytes(w)));
            let [a, b, c] = [&circuit.a, &circuit.b, &circuit.c].map(|list| list.len() as u32);
            Reading { answer: 0, m, n, k, a, b, c, pairs: witnesses.len() as u32 }
        }
    }
}

fn entry_bytes(entry: &Entry) -> Vec<u8> {
    [entry.row, entry.column, entry.value.number()].iter().flat_map(|number| number.to_le_bytes()).collect()
}

/// Writes parts at the front of a buffer.
fn fill(buffer: &mut [u8], parts: impl Iterator<Item = Vec<u8>>) {
    let bytes: Vec<u8> = parts.flatten().collect();
    buffer[..bytes.len()].copy_from_slice(&bytes);
}
