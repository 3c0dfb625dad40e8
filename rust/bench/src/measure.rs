//! The time of the proved code beside that of the plain: the thread's processor time, so that other work on the
//! machine disturbs it less.

use crate::clock;
use std::hint::black_box;

/// Seconds that one call of `work` takes, over `calls` of them.
fn seconds<T>(calls: u32, work: &mut impl FnMut() -> T) -> f64 {
    let start = clock::seconds();
    for _ in 0..calls {
        black_box(work());
    }
    (clock::seconds() - start) / calls as f64
}

/// The least seconds of a round: long beside reading the clock.
const ROUND: f64 = 150e-6;

/// How many calls of `work` a round takes.
pub fn calls_of_a_round<T>(work: &mut impl FnMut() -> T) -> u32 {
    let one = (0..3).map(|_| seconds(1, work)).fold(f64::MAX, f64::min);
    (ROUND / one).ceil() as u32
}

/// Seconds that one call of each takes in its best round. The rounds alternate between the two.
pub fn best<T>(
    rounds: usize,
    calls: u32,
    mut proved: impl FnMut() -> T,
    mut plain: impl FnMut() -> T,
) -> (f64, f64) {
    let (mut best_proved, mut best_plain) = (f64::MAX, f64::MAX);
    for _ in 0..rounds {
        best_proved = best_proved.min(seconds(calls, &mut proved));
        best_plain = best_plain.min(seconds(calls, &mut plain));
    }
    (best_proved, best_plain)
}
