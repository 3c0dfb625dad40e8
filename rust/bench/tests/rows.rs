//! Every call has a row and, where it takes points, one with points that are lent for each. In every row the proved code and
//! the plain agree, and OpenSSL in those about it.

use bench::openssl_rows;
use bench::rows::{self, Row, ROWS};
use lomvuze_trials::{Part, NAMES};

#[test]
fn every_call() {
    let (mut rows, mut lent) = (vec![], vec![]);
    for row in ROWS {
        match row {
            Row::Layer(..) => {}
            Row::Call(name, _) => rows.push(name.exported().to_string()),
            Row::Lent(name, _) => lent.push(name.exported().to_string()),
            Row::Sheet(..) => rows.push("read_sheet".into()),
        }
    }
    for name in NAMES {
        let count = |of: &[String]| of.iter().filter(|call| **call == *name.exported()).count();
        assert!(count(&rows) > 0, "{name:?} has no row");
        let expected = if name.inputs().contains(&Part::Points) { count(&rows) } else { 0 };
        assert_eq!(count(&lent), expected, "{name:?} with lent points");
    }
}

/// Every row is compared before it is measured, here in one round.
#[test]
fn rows_agree() {
    rows::measure(1);
    openssl_rows::measure(1);
}
