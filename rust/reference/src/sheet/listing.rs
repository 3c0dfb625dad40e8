//! The listing of a sheet's claims.

use super::{accept, Claims};
use crate::claims::{self, Item};

/// What the program `claims` prints for a sheet.
pub fn listing(sheet: &[u8]) -> Vec<u8> {
    let text = match accept(sheet, true) {
        Err(answer) => format!("refused\t{answer}\n"),
        Ok(Claims { circuit, items, witnesses, .. }) => {
            let mut text = format!("claims\t{}\n", items.len());
            for (index, (Item { e, r, x, .. }, w)) in items.iter().zip(&witnesses).enumerate() {
                let value = claims::value(&circuit, r, x, w);
                let verdict = if value == *e { "holds" } else { "differs" };
                text += &format!("{index}\t{}\t{}\t{verdict}\n", value.number(), e.number());
            }
            text
        }
    };
    text.into_bytes()
}
