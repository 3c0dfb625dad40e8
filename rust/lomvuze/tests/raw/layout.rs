//! Reads and writes the layout of `include/lomvuze.h` without the crate's help.

use lomvuze::{Circuit, Digest, Entry, Item, Opening, Refusal, Sizes, Witness};
use lomvuze_trials::layout::{ItemLayout, OpeningLayout, DIGEST_BYTES};
use lomvuze_trials::{bytes, number_at};

pub fn answer(call: impl FnOnce() -> Result<(), Refusal>) -> u32 {
    match call() {
        Ok(()) => 0,
        Err(refusal) => refusal.number(),
    }
}

pub fn check_2(passes: bool) -> Result<(), Refusal> {
    if passes {
        Ok(())
    } else {
        Err(Refusal::Sizes)
    }
}

// ---- Reading

/// The parts of a buffer, each of a length.
fn parts(buffer: &[u8], length: usize) -> Result<Vec<&[u8]>, Refusal> {
    check_2(length > 0 && buffer.len().is_multiple_of(length))?;
    Ok(buffer.chunks(length).collect())
}

pub fn numbers<List: From<Vec<u32>>>(buffer: &[u8]) -> Result<List, Refusal> {
    let numbers: Vec<u32> = parts(buffer, 4)?.into_iter().map(|part| number_at(part, 0)).collect();
    Ok(numbers.into())
}

fn entries(buffer: &[u8]) -> Result<Vec<Entry>, Refusal> {
    let entry = |part: &[u8]| Entry {
        row: number_at(part, 0),
        column: number_at(part, 4),
        value: number_at(part, 8),
    };
    Ok(parts(buffer, 12)?.into_iter().map(entry).collect())
}

pub fn circuit(a: &[u8], b: &[u8], c: &[u8]) -> Result<Circuit, Refusal> {
    Ok(Circuit { a: entries(a)?, b: entries(b)?, c: entries(c)? })
}

pub fn digest(buffer: &[u8]) -> Result<Digest, Refusal> {
    buffer.try_into().map_err(|_| Refusal::Sizes)
}

pub fn items(sizes: Sizes, l: u32, buffer: &[u8]) -> Result<Vec<Item>, Refusal> {
    let layout = ItemLayout { m: sizes.m, n: sizes.n };
    let parts = parts(buffer, layout.bytes())?;
    check_2(parts.len() == l as usize)?;
    let item = |part: &[u8]| {
        let (r, x) = (numbers(&part[layout.r()])?, numbers(&part[layout.x()])?);
        let mut item = Item::new(r, x, digest(&part[layout.root()])?);
        item.e = number_at(part, layout.e().start);
        Ok(item)
    };
    parts.into_iter().map(item).collect()
}

pub fn item(sizes: Sizes, buffer: &[u8]) -> Result<Item, Refusal> {
    Ok(items(sizes, 1, buffer)?.remove(0))
}

pub fn witnesses(k: u32, buffer: &[u8]) -> Result<Vec<Witness>, Refusal> {
    parts(buffer, 4 * k as usize)?.into_iter().map(numbers).collect()
}

pub fn openings(sizes: Sizes, buffer: &[u8]) -> Result<Vec<Opening>, Refusal> {
    let layout = OpeningLayout { k: sizes.k };
    let opening = |part: &[u8]| {
        let siblings = part[layout.siblings()].chunks(DIGEST_BYTES);
        let path = siblings.map(digest).collect::<Result<_, _>>()?;
        Ok(Opening { value: number_at(part, layout.value().start), path })
    };
    parts(buffer, layout.bytes())?.into_iter().map(opening).collect()
}

/// From position by position to item by item, as the crate takes them.
pub fn by_item(l: u32, openings: Vec<Opening>) -> Vec<Vec<Opening>> {
    let count = l as usize + 1;
    (0..count).map(|i| openings.iter().skip(i).step_by(count).cloned().collect()).collect()
}

// ---- Writing

pub fn item_bytes(item: &Item) -> Vec<u8> {
    let layout = ItemLayout { m: item.r.len() as u32, n: item.x.len() as u32 };
    let mut written = vec![0; layout.bytes()];
    written[layout.e()].copy_from_slice(&bytes(&[item.e]));
    written[layout.r()].copy_from_slice(&bytes(&item.r));
    written[layout.x()].copy_from_slice(&bytes(&item.x));
    written[layout.root()].copy_from_slice(&item.root);
    written
}

pub fn openings_bytes(k: u32, openings: &[Opening]) -> Vec<u8> {
    let layout = OpeningLayout { k };
    let mut written = vec![0; openings.len() * layout.bytes()];
    for (part, opening) in written.chunks_mut(layout.bytes()).zip(openings) {
        part[layout.value()].copy_from_slice(&bytes(&[opening.value]));
        part[layout.siblings()].copy_from_slice(&opening.path.concat());
    }
    written
}
