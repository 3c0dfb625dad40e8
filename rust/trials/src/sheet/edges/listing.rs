//! The sheet that the scope paper prints, and listings of claims.

use super::{is_read, printed, text, Reader, PRINTED};
use lomvuze_reference::field::P;
use lomvuze_reference::sheet::{write, Pair, Sheet};

pub fn the_printed_sheet(by: &Reader) {
    assert_eq!(write(&printed()), text(PRINTED));
    is_read(by, &printed(), &text(PRINTED));
    assert_eq!((by.listing)(&text(PRINTED)), text("claims→2\n0→0→0→holds\n1→2013265920→0→differs\n"));
}

/// Another root changes no claim.
pub fn the_listing_looks_at_no_root(by: &Reader) {
    let other = text(&PRINTED.replace("6→0..0", &format!("6→{}", "0123456789abcdef".repeat(4))));
    let root = [0x01, 0x23, 0x45, 0x67, 0x89, 0xab, 0xcd, 0xef];
    let mut says = printed();
    says.pairs[0].root = [root; 4].concat().try_into().unwrap();
    is_read(by, &says, &other);
    assert_eq!((by.listing)(&other), (by.listing)(&text(PRINTED)));
}

/// With r = (2, 5) the weights are 4, -8, -5 and 10. The circuit is -x0 in one row, or in all of them.
pub fn the_listing_weighs_rows(by: &Reader) {
    let ones: Vec<[u32; 3]> = (0..4).map(|row| [row, 0, 1]).collect();
    for (c, value) in
        [(&ones[..1], P - 4), (&ones[1..2], 8), (&ones[2..3], 5), (&ones[3..], P - 10), (&ones, P - 1)]
    {
        let pair = |e: u32| Pair { numbers: vec![e, 2, 5, 1], root: [0; 32], witness: vec![0, 0] };
        let pairs = vec![pair(value), pair(0)];
        let says = Sheet { size: [2, 1, 2], a: vec![], b: vec![], c: c.to_vec(), pairs, end: 2 };
        let lines = format!("claims→2\n0→{value}→{value}→holds\n1→{value}→0→differs\n");
        assert_eq!((by.listing)(&write(&says)), text(&lines));
    }
}
