//! The codewords of 10,000 random witnesses of 64 numbers, without trees: the proved functions beside plain Rust.
//! To run it: `cargo run --release --offline -p bench --bin codewords`.
//!
//! First all codewords are compared. Then proved and plain take turns over all witnesses; the best round counts.
//! Ends with status 1 where the proved transform takes more than twice as long as the plain one.

use bench::measure::best;
use bench::plain::code;
use lomvuze_proved as proved;
use lomvuze_trials::Random;
use std::hint::black_box;
use std::process::ExitCode;

const K: usize = 64;
const WITNESSES: usize = 10_000;

/// How many times as long as the plain transform the proved one may take.
const LIMIT: f64 = 2.0;

type Witness = [u32; K];
type Write = fn(&[u32], &mut [u32]);

/// One way to the codeword, proved and plain.
struct Way {
    name: &'static str,
    rounds: usize,
    proved: Write,
    plain: Write,
}

const TRANSFORM: Way = Way {
    name: "transform",
    rounds: 40,
    proved: |w, out| assert_eq!(proved::codeword(w, out), 0),
    plain: code::codeword,
};

/// A round of sums takes some fifty times as long.
const SUMS: Way = Way {
    name: "direct sums",
    rounds: 1,
    proved: |w, out| assert_eq!(proved::codeword_at(w, &code::POINTS, out), 0),
    plain: |w, out| code::codeword_at(w, &code::POINTS, out),
};

fn random_witnesses() -> Vec<Witness> {
    let mut random = Random::new(1);
    (0..WITNESSES).map(|_| std::array::from_fn(|_| random.element().number())).collect()
}

/// The four give the same codeword of every witness.
fn compare(witnesses: &[Witness]) {
    for (i, w) in witnesses.iter().enumerate() {
        let [first, others @ ..] =
            [TRANSFORM.proved, TRANSFORM.plain, SUMS.proved, SUMS.plain].map(|write| {
                let mut out = [0; 4 * K];
                write(w, &mut out);
                out
            });
        assert_eq!(others, [first; 3], "witness {i}");
    }
}

/// Writes every codeword to the same place.
fn write_all(witnesses: &[Witness], write: Write) {
    let mut out = [0; 4 * K];
    for w in witnesses {
        write(black_box(w), black_box(&mut out));
    }
}

/// Prints a line of the table. Answers the seconds of proved and plain for all witnesses.
fn measure(witnesses: &[Witness], way: &Way) -> (f64, f64) {
    let (proved, plain) =
        best(way.rounds, 1, || write_all(witnesses, way.proved), || write_all(witnesses, way.plain));
    let milliseconds = |seconds: f64| 1e3 * seconds;
    let nanoseconds = |seconds: f64| 1e9 * seconds / WITNESSES as f64;
    println!(
        "{:<18} {:>12.2} {:>12.2} {:>17.0} {:>17.0} {:>8.2}",
        way.name,
        milliseconds(proved),
        milliseconds(plain),
        nanoseconds(proved),
        nanoseconds(plain),
        proved / plain
    );
    (proved, plain)
}

fn main() -> ExitCode {
    let witnesses = random_witnesses();
    compare(&witnesses);
    println!("{WITNESSES} random witnesses of {K} numbers: proved and plain give the same codewords\n");
    println!(
        "{:<18} {:>12} {:>12} {:>17} {:>17} {:>8}",
        "", "proved, ms", "plain, ms", "proved, ns each", "plain, ns each", "ratio"
    );
    let (proved, plain) = measure(&witnesses, &TRANSFORM);
    let (proved_sums, plain_sums) = measure(&witnesses, &SUMS);
    println!("{:<18} {:>12.1} {:>12.1}\n", "sums / transform", proved_sums / proved, plain_sums / plain);

    let ratio = proved / plain;
    let finding =
        format!("the proved transform takes {ratio:.2} times as long as plain Rust; the limit is {LIMIT}");
    if ratio > LIMIT {
        eprintln!("FAILED: codewords: {finding}");
        return ExitCode::FAILURE;
    }
    println!("codewords: {finding}");
    ExitCode::SUCCESS
}
