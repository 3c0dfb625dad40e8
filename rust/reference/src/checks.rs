//! What the calls share: the checks by their numbers, and what stands in a buffer.
//!
//! In a buffer a number takes four bytes, lowest first; a circuit's entry is row, column and value. Where the parts of an
//! item and of an opening lie is `lomvuze_calls::layout`'s.

use crate::claims::{self, Circuit, Entry, Item};
use crate::code;
use crate::field::{Element, ONE, P};
use crate::sha256::Digest;
use crate::tree;
use lomvuze_calls::layout::{ItemLayout, OpeningLayout, DIGEST_BYTES};
use std::ops::RangeInclusive;

/// The number of the check that fails.
pub(crate) type Refusal = u32;

/// Runs a call's checks and, if all pass, its writing: 0, or the number of the first check that fails.
pub(crate) fn verdict(call: impl FnOnce() -> Result<(), Refusal>) -> u32 {
    match call() {
        Ok(()) => 0,
        Err(number) => number,
    }
}

pub(crate) fn check(number: u32, passes: bool) -> Result<(), Refusal> {
    if passes {
        Ok(())
    } else {
        Err(number)
    }
}

// ---- Check 2: sizes, counts and lengths.

fn within(number: u32, range: RangeInclusive<usize>) -> Result<usize, Refusal> {
    check(2, range.contains(&(number as usize)))?;
    Ok(number as usize)
}

pub(crate) fn length(buffer: &[u8], expected: usize) -> Result<(), Refusal> {
    check(2, buffer.len() == expected)
}

/// A digest that is lent has 32 bytes.
pub(crate) fn digest(buffer: &[u8]) -> Result<Digest, Refusal> {
    buffer.try_into().map_err(|_| 2)
}

/// m is 0 to 6.
pub(crate) fn size_m(m: u32) -> Result<usize, Refusal> {
    within(m, 0..=6)
}

/// n is 1 to 64.
pub(crate) fn size_n(n: u32) -> Result<usize, Refusal> {
    within(n, 1..=64)
}

/// k is a power of two from 2 to 64.
pub(crate) fn size_k(k: u32) -> Result<usize, Refusal> {
    check(2, k.is_power_of_two())?;
    within(k, 2..=64)
}

/// l is 1 to 8.
pub(crate) fn size_l(l: u32) -> Result<usize, Refusal> {
    within(l, 1..=8)
}

/// t is 1 to 4k.
pub(crate) fn size_t(t: u32, k: usize) -> Result<usize, Refusal> {
    within(t, 1..=4 * k)
}

pub(crate) const fn item_length(m: usize, n: usize) -> usize {
    ItemLayout { m: m as u32, n: n as u32 }.bytes()
}

pub(crate) fn quotient_length(m: usize, l: usize) -> usize {
    4 * claims::quotient_count(m, l)
}

pub(crate) fn opening_length(k: usize) -> usize {
    OpeningLayout { k: k as u32 }.bytes()
}

/// No points, or 4k numbers.
pub(crate) fn points_length(points: &[u8], k: usize) -> Result<(), Refusal> {
    check(2, points.is_empty() || points.len() == 16 * k)
}

/// The greatest count of entries in a list.
pub(crate) const MOST_ENTRIES: usize = 1024;

/// Lists of entries of twelve bytes each.
pub(crate) fn entry_counts(lists: [&[u8]; 3]) -> Result<(), Refusal> {
    check(2, lists.iter().all(|list| list.len().is_multiple_of(12) && list.len() / 12 <= MOST_ENTRIES))
}

// ---- Check 3: elements.

fn number(bytes: &[u8]) -> u32 {
    u32::from_le_bytes(bytes.try_into().expect("four bytes"))
}

fn numbers(bytes: &[u8]) -> Vec<u32> {
    bytes.chunks(4).map(number).collect()
}

pub(crate) fn element(number: u32) -> Result<Element, Refusal> {
    Element::new(number).ok_or(3)
}

pub(crate) fn elements(bytes: &[u8]) -> Result<Vec<Element>, Refusal> {
    numbers(bytes).into_iter().map(element).collect()
}

pub(crate) fn entries(bytes: &[u8]) -> Result<Vec<Entry>, Refusal> {
    bytes
        .chunks(12)
        .map(|entry| {
            Ok(Entry {
                row: number(&entry[0..4]),
                column: number(&entry[4..8]),
                value: element(number(&entry[8..12]))?,
            })
        })
        .collect()
}

pub(crate) fn circuit(a: &[u8], b: &[u8], c: &[u8]) -> Result<Circuit, Refusal> {
    Ok(Circuit { a: entries(a)?, b: entries(b)?, c: entries(c)? })
}

pub(crate) fn item(bytes: &[u8], m: usize, n: usize) -> Result<Item, Refusal> {
    let layout = ItemLayout { m: m as u32, n: n as u32 };
    Ok(Item {
        e: element(number(&bytes[layout.e()]))?,
        r: elements(&bytes[layout.r()])?,
        x: elements(&bytes[layout.x()])?,
        root: bytes[layout.root()].try_into().expect("a digest"),
    })
}

pub(crate) fn items(bytes: &[u8], m: usize, n: usize) -> Result<Vec<Item>, Refusal> {
    bytes.chunks(item_length(m, n)).map(|bytes| item(bytes, m, n)).collect()
}

pub(crate) fn witnesses(bytes: &[u8], k: usize) -> Result<Vec<Vec<Element>>, Refusal> {
    bytes.chunks(4 * k).map(elements).collect()
}

pub(crate) struct Opening {
    pub value: Element,
    pub path: Vec<Digest>,
}

fn opening(bytes: &[u8], layout: OpeningLayout) -> Result<Opening, Refusal> {
    let siblings = bytes[layout.siblings()].chunks(DIGEST_BYTES);
    Ok(Opening {
        value: element(number(&bytes[layout.value()]))?,
        path: siblings.map(|digest| digest.try_into().expect("a digest")).collect(),
    })
}

pub(crate) fn openings(bytes: &[u8], k: usize) -> Result<Vec<Opening>, Refusal> {
    let layout = OpeningLayout { k: k as u32 };
    bytes.chunks(layout.bytes()).map(|bytes| opening(bytes, layout)).collect()
}

// ---- Check 12: points.

/// The points that a call uses: the built-in ones where none are lent, and else the lent ones, of which none is p or
/// more and none repeats another.
pub(crate) fn check_points(lent: &[u8], k: usize) -> Result<Vec<Element>, Refusal> {
    if lent.is_empty() {
        return Ok(code::built_in_points(k));
    }
    let points: Vec<Element> = numbers(lent)
        .into_iter()
        .map(|number| Element::new(number).ok_or(12))
        .collect::<Result<_, Refusal>>()?;
    for (i, point) in points.iter().enumerate() {
        check(12, !points[..i].contains(point))?;
    }
    Ok(points)
}

// ---- Checks 4, 13, 5 and 6.

/// 4: every entry is inside rows and columns and in order.
pub(crate) fn check_circuit(circuit: &Circuit, m: usize, n: usize, k: usize) -> Result<(), Refusal> {
    check(4, circuit.is_in_order(1 << m, n + k))
}

/// 13: the first of an item's inputs is 1.
pub(crate) fn check_first_input(x: &[Element]) -> Result<(), Refusal> {
    check(13, x[0] == ONE)
}

/// 13, over every item.
pub(crate) fn check_first_inputs(items: &[Item]) -> Result<(), Refusal> {
    items.iter().try_for_each(|item| check_first_input(&item.x))
}

/// 5: the challenge is not below l and below p.
pub(crate) fn check_challenge(challenge: u32, l: usize) -> Result<Element, Refusal> {
    check(5, l as u32 <= challenge && challenge < P)?;
    Element::new(challenge).ok_or(5)
}

/// 6: every position is below 4k.
pub(crate) fn check_positions(positions: &[u8], k: usize) -> Result<Vec<usize>, Refusal> {
    let positions = numbers(positions);
    check(6, positions.iter().all(|position| (*position as usize) < 4 * k))?;
    Ok(positions.into_iter().map(|position| position as usize).collect())
}

// ---- Writing.

pub fn element_bytes(elements: &[Element]) -> Vec<u8> {
    elements.iter().flat_map(|element| element.number().to_le_bytes()).collect()
}

pub fn item_bytes(item: &Item) -> Vec<u8> {
    let layout = ItemLayout { m: item.r.len() as u32, n: item.x.len() as u32 };
    let mut bytes = vec![0; layout.bytes()];
    bytes[layout.e()].copy_from_slice(&element_bytes(&[item.e]));
    bytes[layout.r()].copy_from_slice(&element_bytes(&item.r));
    bytes[layout.x()].copy_from_slice(&element_bytes(&item.x));
    bytes[layout.root()].copy_from_slice(&item.root);
    bytes
}

pub(crate) fn opening_bytes(codeword: &[Element], position: usize) -> Vec<u8> {
    let layout = OpeningLayout { k: codeword.len() as u32 / 4 };
    let mut bytes = vec![0; layout.bytes()];
    bytes[layout.value()].copy_from_slice(&element_bytes(&[codeword[position]]));
    bytes[layout.siblings()].copy_from_slice(&tree::path(position, &code::entries(codeword)).concat());
    bytes
}
