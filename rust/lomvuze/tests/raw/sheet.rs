//! The crate's reader of sheets with the arguments of the library's own, so that both can read the same sheet.
//! The lengths of the buffers cannot be said to the crate's; they are answered here, as check 2 does.

use lomvuze::{Circuit, Entry, Item, Refusal, Sizes, Witness};
use lomvuze_reference::sheet::{Pair, Reading, Sheet};
use lomvuze_trials::sheet::Buffers;

/// What the crate read, as the trials have it.
fn says(sheet: lomvuze::Sheet) -> Sheet {
    let lomvuze::Sheet { sizes: Sizes { m, n, k }, circuit: Circuit { a, b, c }, items, witnesses, .. } =
        sheet;
    let [a, b, c] = [a, b, c].map(|list| {
        list.into_iter().map(|Entry { row, column, value }| [row, column, value]).collect::<Vec<_>>()
    });
    assert_eq!(items.len(), witnesses.len());
    let pair = |(Item { e, r, x, root, .. }, witness): (Item, Witness)| {
        assert_eq!([r.len(), x.len()], [m as usize, n as usize]);
        Pair { numbers: [vec![e], r.into(), x.into()].concat(), root, witness: witness.into() }
    };
    let pairs: Vec<Pair> = items.into_iter().zip(witnesses).map(pair).collect();
    Sheet { size: [m, n, k], a, b, c, end: pairs.len() as u32, pairs }
}

pub fn read_sheet(
    text: &[u8],
    a: &mut [u8],
    b: &mut [u8],
    c: &mut [u8],
    items: &mut [u8],
    wits: &mut [u8],
    sizes: &mut [u32; 7],
) -> u32 {
    let outs = [a, b, c, items, wits];
    let lengths_fit = outs.each_ref().map(|out| out.len()) == Buffers::LENGTHS;
    match lomvuze::read_sheet(text) {
        Err(Refusal::Sheet) => Refusal::Sheet.number(),
        _ if !lengths_fit => Refusal::Sizes.number(),
        Err(refusal) => refusal.number(),
        Ok(sheet) => {
            let mut buffers = Buffers(outs.each_ref().map(|out| out.to_vec()));
            let Reading { m, n, k, a, b, c, pairs, .. } = buffers.put(&says(sheet));
            outs.into_iter().zip(&buffers.0).for_each(|(out, buffer)| out.copy_from_slice(buffer));
            *sizes = [m, n, k, a, b, c, pairs];
            0
        }
    }
}
