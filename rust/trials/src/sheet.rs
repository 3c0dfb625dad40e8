//! Random sheets that are accepted, and the buffers that sheets are read into.

pub mod damage;
pub mod edges;

use crate::honest::random_list;
use crate::{bytes, Random};
use lomvuze_reference::claims::{self, Circuit, Entry};
use lomvuze_reference::field::{Element, P};
use lomvuze_reference::sheet::{
    write, Pair, Reading, Sheet, ENTRIES_LENGTH, ITEMS_LENGTH, MOST_BYTES, WITNESSES_LENGTH,
};

/// Sizes and counts that are permitted.
#[derive(Clone, Copy, Debug)]
pub struct Shape {
    pub m: u32,
    pub n: u32,
    pub k: u32,
    pub entries: [usize; 3],
    pub pairs: usize,
}

pub const GREATEST: Shape = Shape { m: 6, n: 64, k: 64, entries: [1024; 3], pairs: 64 };

impl Shape {
    /// Up to `entries` entries in each list.
    fn new(random: &mut Random, m: u32, n: u32, k: u32, entries: usize, pairs: usize) -> Shape {
        let most = entries.min(((n + k) << m) as usize);
        Shape { m, n, k, entries: [0; 3].map(|_| random.below(most + 1)), pairs }
    }

    pub fn any(random: &mut Random) -> Shape {
        let (m, n) = (random.below(7) as u32, 1 + random.below(64) as u32);
        let (k, pairs) = (2 << random.below(6), 1 + random.below(64));
        Shape::new(random, m, n, k, 1024, pairs)
    }

    pub fn small(random: &mut Random) -> Shape {
        let (m, n) = (random.below(4) as u32, 1 + random.below(4) as u32);
        let (k, pairs) = (2 << random.below(3), 1 + random.below(4));
        Shape::new(random, m, n, k, 8, pairs)
    }
}

/// A sheet of this shape that is accepted. About half of its items hold.
pub fn accepted(random: &mut Random, shape: &Shape) -> Sheet {
    let Shape { m, n, k, entries, pairs } = *shape;
    let [a, b, c] = entries.map(|count| {
        let list = random_list(random, m, 0..n + k, count);
        list.iter().map(|entry| [entry.row, entry.column, entry.value.number()]).collect()
    });
    let pairs = (0..pairs)
        .map(|_| Pair {
            numbers: [numbers(random, 1 + m), vec![1], numbers(random, n - 1)].concat(),
            root: random.digest(),
            witness: numbers(random, k),
        })
        .collect::<Vec<_>>();
    let mut sheet = Sheet { size: [m, n, k], a, b, c, end: pairs.len() as u32, pairs };
    // An e that holds may take nine digits more.
    if write(&sheet).len() + 9 * sheet.pairs.len() > MOST_BYTES {
        elements(&mut sheet).into_iter().for_each(|element| *element %= 10);
    }
    let some = (0..sheet.pairs.len()).filter(|_| random.below(2) == 0).collect::<Vec<_>>();
    make_hold(&mut sheet, &some);
    sheet
}

/// A sheet of this shape whose text has exactly this length: the elements but the first inputs get as many digits as
/// that takes.
/// It is accepted unless it is too long.
pub fn of_length(random: &mut Random, shape: &Shape, length: usize) -> Sheet {
    let mut sheet = accepted(random, shape);
    let mut all = free_elements(&mut sheet);
    all.iter_mut().for_each(|element| **element = 0);
    let count = all.len();
    let missing = length - write(&sheet).len();
    for (i, element) in free_elements(&mut sheet).into_iter().enumerate() {
        let digits = 1 + missing * (i + 1) / count - missing * i / count;
        *element = with_digits(random, digits as u32);
    }
    assert_eq!(write(&sheet).len(), length);
    sheet
}

/// An element with this many digits.
fn with_digits(random: &mut Random, digits: u32) -> u32 {
    assert!((1..=10).contains(&digits), "no element has {digits} digits");
    let least = if digits == 1 { 0 } else { 10u32.pow(digits - 1) };
    let end = 10u64.pow(digits).min(P as u64) as u32;
    least + random.below((end - least) as usize) as u32
}

fn numbers(random: &mut Random, count: u32) -> Vec<u32> {
    random.elements(count as usize).iter().map(|element| element.number()).collect()
}

/// The elements of a sheet: the entries' values, then item and witness of each pair.
pub fn elements(sheet: &mut Sheet) -> Vec<&mut u32> {
    let values = [&mut sheet.a, &mut sheet.b, &mut sheet.c].into_iter().flatten().map(|entry| &mut entry[2]);
    let pairs = sheet.pairs.iter_mut().flat_map(|pair| pair.numbers.iter_mut().chain(&mut pair.witness));
    values.chain(pairs).collect()
}

/// The first inputs of the items of a sheet that is accepted.
pub fn first_inputs(sheet: &mut Sheet) -> Vec<&mut u32> {
    let first = 1 + sheet.size[0] as usize;
    sheet.pairs.iter_mut().map(|pair| &mut pair.numbers[first]).collect()
}

/// The elements of such a sheet without the first inputs.
fn free_elements(sheet: &mut Sheet) -> Vec<&mut u32> {
    let first = 1 + sheet.size[0] as usize;
    let values = [&mut sheet.a, &mut sheet.b, &mut sheet.c].into_iter().flatten().map(|entry| &mut entry[2]);
    let pairs = sheet.pairs.iter_mut().flat_map(|pair| {
        let (before, x) = pair.numbers.split_at_mut(first);
        before.iter_mut().chain(&mut x[1..]).chain(&mut pair.witness)
    });
    values.chain(pairs).collect()
}

/// Gives some items of an accepted sheet their value as e.
fn make_hold(sheet: &mut Sheet, items: &[usize]) {
    let element = |number: &u32| Element::new(*number).unwrap();
    let list = |list: &[[u32; 3]]| {
        let entry =
            |[row, column, value]: &[u32; 3]| Entry { row: *row, column: *column, value: element(value) };
        list.iter().map(entry).collect()
    };
    let circuit = Circuit { a: list(&sheet.a), b: list(&sheet.b), c: list(&sheet.c) };
    for i in items {
        let Pair { numbers, witness, .. } = &mut sheet.pairs[*i];
        let r_x: Vec<Element> = numbers[1..].iter().map(element).collect();
        let w: Vec<Element> = witness.iter().map(element).collect();
        let (r, x) = r_x.split_at(sheet.size[0] as usize);
        numbers[0] = claims::value(&circuit, r, x, &w).number();
    }
}

// ---- Buffers

/// A function that reads a sheet into the five buffers.
pub type ReadInto<R> = fn(&[u8], &mut [u8], &mut [u8], &mut [u8], &mut [u8], &mut [u8]) -> R;

/// The buffers that a sheet is read into: the entries of A, B and C, items and witnesses.
#[derive(Clone, PartialEq)]
pub struct Buffers(pub [Vec<u8>; 5]);

impl Buffers {
    pub const LENGTHS: [usize; 5] =
        [ENTRIES_LENGTH, ENTRIES_LENGTH, ENTRIES_LENGTH, ITEMS_LENGTH, WITNESSES_LENGTH];

    /// Buffers that hold a pattern.
    pub fn new(lengths: [usize; 5]) -> Buffers {
        let pattern: Vec<u8> = (1..=251).collect();
        Buffers(lengths.map(|length| pattern.repeat(1 + length / 251)[..length].to_vec()))
    }

    pub fn read<R>(&mut self, by: ReadInto<R>, sheet: &[u8]) -> R {
        let [a, b, c, items, wits] = &mut self.0;
        by(sheet, a, b, c, items, wits)
    }

    /// Puts in what an accepted sheet says, and gives the result of reading it.
    pub fn put(&mut self, sheet: &Sheet) -> Reading {
        let item = |pair: &Pair| [bytes(&pair.numbers), pair.root.to_vec()].concat();
        let parts = [
            bytes(sheet.a.as_flattened()),
            bytes(sheet.b.as_flattened()),
            bytes(sheet.c.as_flattened()),
            sheet.pairs.iter().flat_map(item).collect(),
            sheet.pairs.iter().flat_map(|pair| bytes(&pair.witness)).collect(),
        ];
        for (buffer, part) in self.0.iter_mut().zip(parts) {
            buffer[..part.len()].copy_from_slice(&part);
        }
        let [m, n, k] = sheet.size;
        let [a, b, c] = [&sheet.a, &sheet.b, &sheet.c].map(|list| list.len() as u32);
        Reading { answer: 0, m, n, k, a, b, c, pairs: sheet.pairs.len() as u32 }
    }
}
