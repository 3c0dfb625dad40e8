//! What a call answers: its verdict, 0 or the number of the first check that fails. Verifying answers 64 times the
//! number of SHA-256 blocks that it processed, plus its verdict.

use crate::own::own;
use crate::Call;
use lomvuze_calls::layout::OpeningLayout;

/// The verdict of an answer.
pub fn verdict(answer: u64) -> u32 {
    (answer % 64) as u32
}

/// The blocks of an answer.
pub fn blocks(answer: u64) -> u64 {
    answer / 64
}

/// The blocks of an opening, which is hashed whole: a leaf of one, and log2(4k) inner nodes of two each.
pub fn opening_blocks(k: u32) -> u64 {
    1 + 2 * OpeningLayout { k }.depth() as u64
}

/// The answer of verifying that gives this verdict after so many openings.
pub fn after(openings: usize, k: u32, verdict: u32) -> u64 {
    64 * openings as u64 * opening_blocks(k) + verdict as u64
}

/// The answer of verifying that has this verdict and hashed the openings of l items and the new one at t positions.
pub fn after_all(k: u32, l: u32, t: u32, verdict: u32) -> u64 {
    after((t * (l + 1)) as usize, k, verdict)
}

/// Whether verifying a fold of these sizes may answer this: all openings are hashed where it accepts and where 9
/// refuses, one or more of them where 8 does, and none where another check does.
pub fn verify_permits(k: u32, l: u32, t: u32, answer: u64) -> bool {
    match verdict(answer) {
        number @ (0 | 9) => answer == after_all(k, l, t, number),
        8 => (1..=(t * (l + 1)) as usize).any(|openings| answer == after(openings, k, 8)),
        number => answer == number as u64,
    }
}

impl Call {
    /// The count of openings that verifying takes.
    pub fn openings(&self) -> usize {
        self.number("t") * (self.number("l") + 1)
    }

    /// The answer where the call is accepted.
    pub fn accepted(&self) -> u64 {
        own(self.name).accepted(self)
    }

    /// Whether the call may answer this.
    pub fn permits(&self, answer: u64) -> bool {
        own(self.name).permits(self, answer)
    }

    /// The answer where a check refuses that the call before a change passed.
    pub fn refusal(&self, passing: &Call, check: u32) -> u64 {
        own(self.name).refusal(passing, self, check)
    }
}
