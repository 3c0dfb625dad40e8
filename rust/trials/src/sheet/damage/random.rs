//! Random changes of what a sheet says, of its lines and of its bytes.

use super::lines::Lines;
use super::{pick, pick_list};
use crate::sheet::elements;
use crate::Random;
use lomvuze_reference::field::P;
use lomvuze_reference::sheet::{Pair, Sheet};

/// Writes a sheet after one to three random changes.
pub fn damaged(random: &mut Random, sheet: &Sheet) -> Vec<u8> {
    let mut changes = [0; 3];
    for _ in 0..1 + random.below(3) {
        changes[random.below(3)] += 1;
    }
    let mut sheet = sheet.clone();
    for _ in 0..changes[0] {
        change_sheet(random, &mut sheet);
    }
    let mut lines = Lines::of(&sheet);
    for _ in 0..changes[1] {
        lines.change(random);
    }
    let mut text = lines.text();
    for _ in 0..changes[2] {
        change_bytes(random, &mut text);
    }
    text
}

/// Changes what a sheet says. The line rules stay kept.
fn change_sheet(random: &mut Random, sheet: &mut Sheet) {
    let (small, any) = (random.below(130) as u32, random.number());
    let number = pick(random, &[0, 1, P - 1, P, P + 1, u32::MAX, small, any]);
    let (pairs, first) = (sheet.pairs.len(), 1 + sheet.size[0] as usize);
    match random.below(13) {
        0 => {
            let size = &mut sheet.size[random.below(3)];
            *size = pick(random, &[number, small, size.wrapping_add(1), size.wrapping_sub(1)]);
        }
        // An item has as many numbers for m + 1 and n - 1.
        1 => {
            let by = pick(random, &[1, u32::MAX]);
            sheet.size[0] = sheet.size[0].wrapping_add(by);
            sheet.size[1] = sheet.size[1].wrapping_sub(by);
        }
        2 | 3 => {
            let mut all = elements(sheet);
            if !all.is_empty() {
                let i = random.below(all.len());
                *all[i] = number;
            }
        }
        4 | 5 => change_entries(random, sheet, number),
        6 => sheet.end = pick(random, &[number, sheet.end.wrapping_add(1), sheet.end.wrapping_sub(1)]),
        _ if pairs == 0 => sheet.end = number,
        7 => change_pair_count(random, sheet),
        8 => sheet.pairs.swap(random.below(pairs), pairs - 1),
        9..=11 => {
            sheet.pairs[random.below(pairs)].numbers.iter_mut().skip(first).take(1).for_each(|x| *x = number)
        }
        _ => {
            let Pair { numbers, witness, .. } = &mut sheet.pairs[random.below(pairs)];
            let line = if random.below(2) == 0 { numbers } else { witness };
            let count = pick(random, &[1, line.len() + 1, line.len() - 1]);
            line.resize(count.max(1), number);
        }
    }
}

/// More pairs, fewer, or none, mostly with the count behind them.
fn change_pair_count(random: &mut Random, sheet: &mut Sheet) {
    let pairs = sheet.pairs.len();
    let count = pick(random, &[0, pairs - 1, pairs + 1, 63, 64, 65]);
    let pair = sheet.pairs[random.below(pairs)].clone();
    sheet.pairs.resize(count, pair);
    if random.below(4) > 0 {
        sheet.end = count as u32;
    }
}

/// Changes a list of entries: its order, a place, or how many there are.
fn change_entries(random: &mut Random, sheet: &mut Sheet, number: u32) {
    let other = pick_list(random, sheet).last().copied().unwrap_or([0, 0, number]);
    let list = pick_list(random, sheet);
    let (i, j) = (random.below(list.len() + 1), random.below(list.len() + 1));
    match random.below(5) {
        _ if i.max(j) == list.len() => list.insert(i, other),
        0 => list.swap(i, j),
        1 => list[i][random.below(2)] = number,
        2 => list[i] = list[j],
        3 => drop(list.remove(i)),
        _ => list.insert(i, other),
    }
}

/// Bytes that sheets have, and some others.
const BYTES: &[u8] = b"\t\n\t\n0123456789abcdefsizetmwn \r\0AF/:\x80\xff";

pub(crate) fn change_bytes(random: &mut Random, text: &mut Vec<u8>) {
    let at = random.below(text.len() + 1);
    let byte = if random.below(4) == 0 { random.below(256) as u8 } else { pick(random, BYTES) };
    match random.below(8) {
        0 => text.insert(at, byte),
        1 => drop(text.pop()),
        2 => text.push(byte),
        3 if random.below(4) == 0 => text.truncate(at),
        _ if at == text.len() => text.push(byte),
        4 => drop(text.remove(at)),
        5 => text[at] ^= 1 << random.below(8),
        6 => text.insert(at, text[at]),
        _ => text[at] = byte,
    }
}
