//! The tables of the benchmark: which run a row is of, and that its times give its ratio.

use bench::table::{markdown, middle, Row};

fn row(first: f64, plain: f64) -> Row {
    Row { name: "a row".into(), first, plain }
}

#[test]
fn middle_ratio() {
    let runs = [(30.0, 20.0), (10.0, 10.0), (90.0, 100.0), (50.0, 20.0), (11.0, 10.0)];
    assert_eq!(middle(runs.map(|(first, plain)| row(first, plain)).into()), row(11.0, 10.0));
}

#[test]
fn lines() {
    assert_eq!(Row::read("a row\t1.5\t1234567.25"), row(1.5, 1234567.25));
}

#[test]
fn shown() {
    let rows = [row(0.8126, 1.0), row(999.94, 1000.2), row(1234567.4, 12345.6)];
    let expected = "\
| rows  | proved, ns | plain, ns |  ratio |
|---|---|---|---|
| a row |      0.813 |     1.000 |   0.81 |
| a row |      999.9 |     1,000 |   1.00 |
| a row |  1,234,567 |    12,346 | 100.00 |
";
    assert_eq!(markdown("rows", "proved", &rows), expected);
}

/// Where more digits would give another ratio: 0.0054 / 0.0046 is 1.17.
#[test]
fn times_give_the_ratio() {
    assert_eq!(row(0.0054, 0.0046).ratio(), 1.0);
}
