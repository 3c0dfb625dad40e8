//! Check 12 of 256 lent points beside encoding over them, both proved, at k = 64.
//! To run it: `cargo run --release --offline -p bench --bin points`.
//!
//! The two take turns; the best round counts. Ends with status 1 where the check takes more than a tenth of encoding.

use bench::measure::best;
use lomvuze_proved as proved;
use lomvuze_trials::{points, Random};
use lomvuze_verdicts as verdicts;
use std::hint::black_box;
use std::process::ExitCode;

const K: u32 = 64;
const ROUNDS: usize = 200;

/// How much of encoding the check may take.
const LIMIT: f64 = 0.1;

fn main() -> ExitCode {
    let mut random = Random::new(1);
    let lent = points::different(&mut random, K);
    let w: Vec<u8> = (0..K).flat_map(|_| random.element().number().to_le_bytes()).collect();
    let (mut code, mut root) = ([0; 16 * K as usize], [0; 32]);
    let (check, encode) = best(
        ROUNDS,
        1,
        || assert_eq!(proved::points(K, black_box(&lent)), 0),
        || assert_eq!(verdicts::encode(K, black_box(&lent), &w, &mut code, &mut root), 0),
    );
    let share = check / encode;
    let microseconds = |seconds: f64| 1e6 * seconds;
    let finding = format!(
        "check 12 of {} points takes {:.1} of the {:.1} microseconds of encoding over them, {:.1} %; the limit is {:.0} %",
        4 * K,
        microseconds(check),
        microseconds(encode),
        100.0 * share,
        100.0 * LIMIT
    );
    if share > LIMIT {
        eprintln!("FAILED: points: {finding}");
        return ExitCode::FAILURE;
    }
    println!("points: {finding}");
    ExitCode::SUCCESS
}
