//! What the calls answer, and what their output buffers then hold: damaged input that is refused before anything is hashed,
//! and encoding and deciding for the one witness whose trees are worked out. For verifying, verdict and blocks.

use crate::inputs::{edges, honest_calls, worked_out};
use crate::inverses::combined;
use crate::text::{list, Equation, File};
use lomvuze_reference::field::P;
use lomvuze_trials::answer::{blocks, verdict};
use lomvuze_trials::{put, Random, NAMES, REFERENCE};
use std::collections::BTreeMap;

/// A call with its numbers and then its buffers, of which the last ones are written.
#[derive(Clone)]
pub struct Call {
    pub name: &'static str,
    pub numbers: Vec<u32>,
    pub buffers: Vec<Vec<u8>>,
    pub outputs: &'static [&'static str],
}

impl Call {
    /// The reference's answer; it writes to the call's output buffers.
    fn run(&mut self) -> u64 {
        let exported = self.name.trim_matches(['«', '»']);
        let name = NAMES.into_iter().find(|name| name.exported() == exported).expect("a call");
        let (inputs, outputs) = self.buffers.split_at_mut(name.inputs().len());
        let inputs: Vec<&[u8]> = inputs.iter().map(|input| &input[..]).collect();
        let mut outputs: Vec<&mut [u8]> = outputs.iter_mut().map(|output| &mut output[..]).collect();
        (REFERENCE.call)(name, &self.numbers, &inputs, &mut outputs)
    }

    /// Whether the first buffer holds points.
    pub fn takes_points(&self) -> bool {
        !matches!(self.name, "interleave" | "verify")
    }

    /// The definition's result in which the call answers this and its outputs hold what the buffers hold now.
    fn result(&self, answer: u64) -> String {
        match self.name {
            "verify" => {
                return format!("record {{ verdict = {}; blocks = {} }}", verdict(answer), blocks(answer))
            }
            "decide" => return answer.to_string(),
            _ => (),
        }
        let first = self.buffers.len() - self.outputs.len();
        let outputs = self.outputs.iter().zip(&self.buffers[first..]);
        let fields: String = outputs.map(|(name, buffer)| format!("; {name} = {}", list(buffer))).collect();
        format!("record {{ answer = {answer}{fields} }}")
    }

    /// The call's arguments.
    fn arguments(&self) -> String {
        let numbers = self.numbers.iter().map(u32::to_string);
        numbers.chain(self.buffers.iter().map(list)).collect::<Vec<_>>().join(" ")
    }

    /// Runs the call, for its verdict; the equation says what it answers and what its outputs hold.
    fn equation(mut self) -> (u32, Equation) {
        let arguments = self.arguments();
        let answer = self.run();
        let verdict = verdict(answer);
        let (unfolding, mut proof) = self.proof(verdict, &arguments);
        // Those of verifying prove the verdict: it is none of 0, 8 and 9, and so nothing is hashed.
        if self.name == "verify" {
            proof = format!("verify-refused {arguments} {verdict} refl refl refl ({proof})");
        }
        let left = format!("{} {arguments}", self.name);
        (verdict, Equation { left, right: self.result(answer), unfolding, proof })
    }

    /// What is unfolded, and the proof by it, where the call has this verdict.
    fn proof(&self, verdict: u32, arguments: &str) -> (String, String) {
        let tests = TESTS;
        // The trees of the one witness: at the built-in points, and at the lent ones.
        let lent = if self.buffers[0].is_empty() { "" } else { "lent-" };
        match (self.name, verdict) {
            ("encode", 0) => (
                format!("encode_over {tests} bytes val ofℕ"),
                format!("λ i. record {{ answer = 0; code = bytes (map val ({lent}codeword-is i)); root = {lent}root-is i }}"),
            ),
            // Check 13, and what comes behind it.
            ("cast" | "quotient" | "fold" | "verify", 13 | 5 | 6) | ("cast", 11) => (
                format!("{tests} depth baby_bear val ofℕ"),
                format!("{}-runs {arguments} ∙ refl", self.name),
            ),
            ("decide", 13) => {
                (format!("{tests} baby_bear val ofℕ"), format!("decide-tests {arguments} ∙ refl"))
            }
            ("decide", 0 | 10 | 11) => (
                format!("{tests} item_at baby_bear val ofℕ"),
                format!("decide-runs {arguments} _ {lent}root-is ∙ refl"),
            ),
            ("verify", 7) => (
                format!("{tests} depth item_at val"),
                format!("verify-runs {arguments} ∙ {}", combined(self.numbers[3] as usize)),
            ),
            // The definition over an instance: the name alone is an abbreviation.
            (name, _) => (format!("{}_over {tests} depth", name.trim_matches(['«', '»'])), "refl".to_string()),
        }
    }

    /// The call's name and verdict, and an equation that the prover can run: for what is not refused before hashing, that
    /// the call passes its checks 2 to 6, 12 and 13.
    fn runnable(self) -> (&'static str, u32, Equation) {
        let (name, passes_early) = (self.name, self.passes_early());
        let (verdict, equation) = self.equation();
        (name, verdict, if runs_unhashed(name, verdict) { equation } else { passes_early })
    }

    /// The equation that says that the call passes its checks 2 to 6, 12 and 13.
    fn passes_early(&self) -> Equation {
        let (name, early, runs_13) = match self.name {
            "encode" => ("encode", 3, false),
            "«open»" => ("open", 4, false),
            "interleave" => ("interleave", 1, false),
            "fold" => ("fold", 6, true),
            name => (name, 5, true),
        };
        let arguments = self.arguments();
        let (elements, proof) = match runs_13 {
            true => (" baby_bear val ofℕ", format!("{name}-early {arguments} ∙ refl")),
            false => ("", "refl".to_string()),
        };
        Equation {
            left: format!("answer (take {early} ({name}_checks {arguments}))"),
            right: "0".to_string(),
            unfolding: format!("{TESTS} depth{elements}"),
            proof,
        }
    }

    /// Changes a number, the length of a buffer or a number in a buffer.
    fn damage(&mut self, random: &mut Random) {
        let numbers = [0, 1, 2, 3, 4, 7, 8, 9, 16, 64, 65, 128, P - 1, P, u32::MAX];
        let number = numbers[random.below(numbers.len())];
        if random.below(3) == 0 {
            let i = random.below(self.numbers.len());
            self.numbers[i] = number;
            return;
        }
        let i = random.below(self.buffers.len());
        let buffer = &mut self.buffers[i];
        match random.below(6) {
            0 => buffer.push(7),
            1 => buffer.truncate(buffer.len().saturating_sub(4)),
            _ if buffer.len() < 4 => (),
            _ => {
                let at = 4 * random.below(buffer.len() / 4);
                put(buffer, at, number);
            }
        }
    }
}

/// The definitions that the tests of the checks are computed by.
const TESTS: &str = "every all_below all_different numbers";

/// How many equations each call gets for each verdict.
const EACH: usize = 6;

/// Whether the prover can run the call: it hashes nothing, or is refused before it does.
fn runs_unhashed(name: &str, verdict: u32) -> bool {
    matches!(verdict, 2..=6 | 12 | 13)
        || matches!((name, verdict), ("cast", 11) | ("verify", 7) | ("interleave", 0))
}

const HEAD: &str = "-- What the calls answer to damaged input, and what their output buffers then hold.
use Rattle.std.specs.Prelude.{◌≡◌, refl, List, [], ◌∷◌, map, take}
use Rattle.std.proofs.Common.{◌∙◌}
use Rattle.field.specs.BabyBear.{baby_bear, val, ofℕ}
use Rattle.numbers.specs.Numbers.{numbers, all_below, all_different, bytes}
use Rattle.code.specs.Points.{depth}
use Rattle.theory.specs.Checks.{every, answer}
use Rattle.theory.specs.Combination.{item_at}
use Rattle.theory.specs.Calls.{encode as encode_over, cast as cast_over, quotient as quotient_over, fold as fold_over, «open» as open_over, interleave as interleave_over, decide as decide_over}
use Rattle.theory.specs.Verify.{verify as verify_over}
use Rattle.theory.specs.Fp.{encode, cast, quotient, fold, «open», interleave, verify, decide}
use Rattle.theory.specs.Fp.{encode_checks, cast_checks, quotient_checks, fold_checks, open_checks, interleave_checks, verify_checks, decide_checks}
use Rattle.agreement.specs.Elements.{listed}
use Rattle.agreement.specs.Runs.{cast-runs, cast-early, quotient-runs, quotient-early, fold-runs, fold-early, decide-runs, decide-tests, decide-early, verify-runs, verify-refused, verify-early}
use Rattle.agreement.specs.Inverses.{inverse-0-1, inverse-1-0}
use Rattle.agreement.specs.Digests.{equation-16 as codeword-is, equation-17 as root-is, equation-34 as lent-codeword-is, equation-35 as lent-root-is}
";

pub fn answers() -> File {
    let random = &mut Random::new(7);
    let mut equations: Vec<Equation> = worked_out(random).into_iter().map(|call| call.equation().1).collect();
    for call in (0..2).flat_map(|_| edges(random)).collect::<Vec<_>>() {
        equations.push(call.runnable().2);
    }
    let mut counts = BTreeMap::new();
    for _ in 0..4000 {
        for mut call in honest_calls(random) {
            for _ in 0..1 + random.below(3) {
                call.damage(random);
            }
            let (name, verdict, equation) = call.runnable();
            let count = counts.entry((name, verdict)).or_insert(0);
            if *count < EACH {
                *count += 1;
                equations.push(equation);
            }
        }
    }
    File { name: "Answers", head: HEAD.to_string(), equations }
}
