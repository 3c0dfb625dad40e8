//! The fold whose edges are tested: it is accepted, and what is written is known.

use super::accepted;
use super::fold::{refusals_after, Fold, ITEM};
use crate::{bytes, Library, Name};
use lomvuze_reference::field::P;

pub fn the_fold(by: &Library) {
    assert_eq!(refusals_after(by, |_| ()), accepted());
}

pub fn written_buffers(by: &Library) {
    let all = Fold::new(by);
    let [code, root] = all.writes(by, Name::Encode);
    assert_eq!((&code[..4], &code[16..20]), (&bytes(&[5])[..], &bytes(&[P - 1])[..]));
    let [item] = all.writes(by, Name::Cast);
    assert_eq!(item, all["items"][..ITEM.bytes()]);
    assert_eq!(item[ITEM.root()], root);
    let [quotient] = all.writes(by, Name::Quotient);
    assert_eq!(quotient, bytes(&[4]));
    let [quotient_of_fold, new_item, witness] = all.writes(by, Name::Fold);
    assert_eq!(quotient_of_fold, quotient);
    assert_eq!(new_item[ITEM.e()], bytes(&[8]));
    assert_eq!(new_item[ITEM.x()], bytes(&[1, 34]));
    assert_eq!(witness, bytes(&[6, 7]));
    let [openings] = all.writes(by, Name::Open);
    assert_eq!(openings[..4], bytes(&[5]));
}

/// Openings one witness after the other, and position by position: opening i of witness j is the j-th of position i.
pub fn openings_in_the_order_of_verifying(by: &Library) {
    let all = Fold::new(by);
    let length = all["opened"].len() / 9;
    let opened: Vec<&[u8]> = all["opened"].chunks(length).collect();
    for (at, opening) in all["openings"].chunks(length).enumerate() {
        assert_eq!(opening, opened[3 * (at % 3) + at / 3], "opening {at}");
    }
}
