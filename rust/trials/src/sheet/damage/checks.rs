//! Changes of a sheet that make chosen checks fail.

use super::lines::Lines;
use super::{pick, pick_list};
use crate::sheet::{elements, first_inputs};
use crate::Random;
use lomvuze_reference::field::P;
use lomvuze_reference::sheet::{Pair, Sheet};

/// Writes an accepted sheet after changes that make these checks fail: the answer is the first of them in the order 1,
/// 2, 3, 4, 13, unless the text got too long.
pub fn failing(random: &mut Random, sheet: &Sheet, checks: &[u32]) -> Vec<u8> {
    let mut sheet = sheet.clone();
    if checks.contains(&13) {
        fail_first_inputs(random, &mut sheet);
    }
    if checks.contains(&4) {
        fail_order(random, &mut sheet);
    }
    if checks.contains(&3) {
        let number = pick(random, &[P, P + 1, u32::MAX]);
        let mut all = elements(&mut sheet);
        let i = random.below(all.len());
        *all[i] = number;
    }
    if checks.contains(&2) {
        fail_sizes(random, &mut sheet);
    }
    let mut lines = Lines::of(&sheet);
    if checks.contains(&1) {
        lines.break_rule(random);
    }
    lines.text()
}

/// A size or a count that is not permitted, or one that does not fit the others.
fn fail_sizes(random: &mut Random, sheet: &mut Sheet) {
    let pairs = sheet.pairs.len();
    let pair = random.below(pairs);
    match random.below(8) {
        0 => fail_size(random, sheet),
        1 => pick_list(random, sheet).resize(1025, [0, 0, 0]),
        2 => {
            sheet.pairs.clear();
            sheet.end = pick(random, &[0, 1, pairs as u32]);
        }
        3 => {
            let count = 65 + random.below(3);
            let mut short = sheet.pairs[0].clone();
            short.numbers.fill(0);
            short.witness.fill(0);
            sheet.pairs.resize(count, short);
            sheet.end = pick(random, &[count as u32, 64, pairs as u32]);
        }
        4 => {
            let count = pairs as u32;
            sheet.end = pick(random, &[count - 1, count + 1, count + (1 << 8), count + (1 << 31), u32::MAX]);
        }
        5 | 6 => {
            let Pair { numbers, witness, .. } = &mut sheet.pairs[pair];
            let line = if random.below(2) == 0 { numbers } else { witness };
            let count = line.len();
            line.resize(pick(random, &[1, count - 1, count + 1, 2 * count]), 0);
        }
        // A number of the witness is on the item's line, or the other way round.
        _ => {
            let Pair { numbers, witness, .. } = &mut sheet.pairs[pair];
            let (from, to) = if random.below(2) == 0 { (numbers, witness) } else { (witness, numbers) };
            to.extend(from.pop());
        }
    }
}

/// A size that is not permitted, at times with pairs that fit it.
fn fail_size(random: &mut Random, sheet: &mut Sheet) {
    let not_permitted: [&[u32]; 3] =
        [&[7, 8, 255, 256, u32::MAX], &[0, 65, 256, u32::MAX], &[0, 1, 3, 5, 63, 65, 96, 128, u32::MAX]];
    let i = random.below(3);
    sheet.size[i] = pick(random, not_permitted[i]);
    if random.below(2) == 0 {
        fit(sheet);
    }
}

/// Gives every pair as many numbers as the sizes say, where those are not too large.
fn fit(sheet: &mut Sheet) {
    let [m, n, k] = sheet.size.map(|size| (size as usize).min(300));
    for pair in &mut sheet.pairs {
        pair.numbers.resize(1 + m + n, 0);
        pair.witness.resize(k.max(1), 0);
    }
}

/// An entry outside rows or columns, or one that does not lie behind the one before.
fn fail_order(random: &mut Random, sheet: &mut Sheet) {
    let [m, n, k] = sheet.size;
    let (rows, columns) = (1 << m, n + k);
    let list = pick_list(random, sheet);
    if list.is_empty() {
        list.push([0, 0, 0]);
    }
    let count = list.len();
    let i = random.below(count);
    match random.below(5) {
        0 => list[i][0] = pick(random, &[rows, rows + 1, u32::MAX]),
        1 => list[i][1] = pick(random, &[columns, columns + 1, u32::MAX]),
        2 if count < 1024 => list.insert(i, list[i]),
        3 if i > 0 => list[i] = [list[i - 1][0], list[i - 1][1], list[i][2]],
        4 if count > 1 => list.swap(i, (i + 1) % count),
        _ => list[i][0] = rows,
    }
}

/// A first input other than 1: of the first pair, of the last, of any or of all.
fn fail_first_inputs(random: &mut Random, sheet: &mut Sheet) {
    let any = random.element().number();
    let number = pick(random, &[0, 2, P - 1, if any == 1 { 3 } else { any }]);
    let mut all = first_inputs(sheet);
    let last = all.len() - 1;
    match random.below(4) {
        0 => *all[0] = number,
        1 => *all[last] = number,
        2 => *all[random.below(last + 1)] = number,
        _ => all.into_iter().for_each(|first| *first = number),
    }
}
