//! Blocks: of messages, and of accepted folds.

use crate::text::{list, Equation, File};
use lomvuze_reference::sha256::hash;
use lomvuze_trials::answer::{blocks, verdict};
use lomvuze_trials::{Chain, Honest, Random, REFERENCE};

/// The blocks of a message.
fn of_message(message: &[u8]) -> Equation {
    Equation {
        left: format!("block_count {}", list(message)),
        right: hash(message).blocks.to_string(),
        unfolding: "block_count pad padding zeros in_bytes up_to".to_string(),
        proof: "refl".to_string(),
    }
}

/// The blocks of an accepted fold, as the theorems `accepted-blocks` and `refused-by-9` have them: the right side is what
/// the reference counts for one.
fn of_fold(random: &mut Random, k: u32, l: u32, t: u32) -> Equation {
    let list = Honest::random(random, 0, 1, k, l);
    let positions: Vec<u32> = (0..t).map(|_| random.below(4 * k as usize) as u32).collect();
    let answer = Chain::new(&REFERENCE, &list, l, &positions).verify(&REFERENCE, &list);
    assert_eq!(verdict(answer), 0);
    Equation {
        left: format!("fold_blocks {k} {l} {t}"),
        right: blocks(answer).to_string(),
        unfolding: "depth".to_string(),
        proof: "refl".to_string(),
    }
}

/// Messages on either side of a further block, a leaf's 9 bytes and an inner node's 65 among them; folds of every k and
/// every l, and one of the most blocks.
pub fn counts() -> File {
    let random = &mut Random::new(8);
    let lengths = [0, 1, 9, 55, 56, 63, 64, 65, 119, 120];
    let mut equations: Vec<Equation> =
        lengths.iter().map(|length| of_message(&random.bytes(*length))).collect();
    for k in [2, 4, 8, 16, 32, 64] {
        for l in 1..=8 {
            let t = 1 + random.below(4) as u32;
            equations.push(of_fold(random, k, l, t));
        }
    }
    equations.push(of_fold(random, 64, 8, 256));
    let head = "-- The blocks of messages, and of accepted folds.
use Rattle.std.specs.Prelude.{◌≡◌, refl, List, [], ◌∷◌}
use Rattle.hash.specs.Sha256.{block_count, pad, padding, zeros, in_bytes, up_to}
use Rattle.code.specs.Points.{depth}
use Rattle.theory.specs.Blocks.{fold_blocks}
"
    .to_string();
    File { name: "Counts", head, equations }
}
