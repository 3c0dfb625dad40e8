//! The reader of sheets, with the passes of the proved one: one for checks 1 and 2 and the pairs, one up to the first item
//! for the circuit, each into arrays of its own, and once all checks are passed one into the buffers. The reference collects
//! what a sheet says in lists, once.

use super::checks::{below, check, circuit_below, claim_sizes, in_order, items_below, leading_ones, verdict};
use super::scan::{scan, scan_entries, Scanner, Sheet};
use lomvuze_calls::layout::ItemLayout;
use lomvuze_reference::sheet::{ENTRIES_LENGTH, ITEMS_LENGTH, WITNESSES_LENGTH};

fn permitted(sheet: &Sheet) -> bool {
    let [m, n, k] = sheet.size;
    claim_sizes(m, n)
        && [2, 4, 8, 16, 32, 64].contains(&k)
        && sheet.entries.iter().all(|list| 4 * list.count <= ENTRIES_LENGTH)
        && (1..=64).contains(&sheet.pairs)
        && sheet.fits
        && sheet.end as usize == sheet.pairs
}

/// Checks 1 and 2, and check 3 of the pairs: the sizes and counts, and whether check 13 passes; or the number of the check.
fn pairs(sheet: &[u8], lengths_fit: bool) -> Result<([u32; 7], bool), u32> {
    let (mut items, mut wits) = ([0; ITEMS_LENGTH], [0; WITNESSES_LENGTH]);
    let mut read = Sheet::new(&mut [], &mut [], &mut [], &mut items, &mut wits);
    check(1, scan(sheet, &mut read).is_some())?;
    check(2, permitted(&read) && lengths_fit)?;
    let ([m, n, k], items) = (read.size, read.items.read());
    let layout = ItemLayout { m, n };
    check(3, items_below(layout, items) && below(read.wits.read()))?;
    let [a, b, c] = [0, 1, 2].map(|list| read.entries[list].count as u32 / 3);
    Ok(([m, n, k, a, b, c, read.pairs as u32], leading_ones(layout, items)))
}

/// Checks 3 and 4 of the circuit, behind those.
fn circuit(sheet: &[u8]) -> Result<(), u32> {
    let [mut a, mut b, mut c] = [[0; ENTRIES_LENGTH]; 3];
    let mut read = Sheet::new(&mut a, &mut b, &mut c, &mut [], &mut []);
    check(1, scan_entries(&mut Scanner { sheet, at: 0 }, &mut read).is_some())?;
    let ([m, n, k], lists) = (read.size, [0, 1, 2].map(|list| read.entries[list].read()));
    check(3, circuit_below(lists))?;
    check(4, lists.iter().all(|list| in_order(1 << m, n + k, list)))
}

/// `sizes_out` gets m, n and k, how many entries A, B and C have, and how many pairs there are.
#[inline(never)]
pub fn read_sheet(
    sheet: &[u8],
    a: &mut [u8],
    b: &mut [u8],
    c: &mut [u8],
    items: &mut [u8],
    wits: &mut [u8],
    sizes_out: &mut [u32; 7],
) -> u32 {
    verdict(|| {
        let lengths_fit = [a.len(), b.len(), c.len()] == [ENTRIES_LENGTH; 3]
            && [items.len(), wits.len()] == [ITEMS_LENGTH, WITNESSES_LENGTH];
        let (sizes, leading_ones) = pairs(sheet, lengths_fit)?;
        circuit(sheet)?;
        check(13, leading_ones)?;
        scan(sheet, &mut Sheet::new(a, b, c, items, wits));
        *sizes_out = sizes;
        Ok(())
    })
}
