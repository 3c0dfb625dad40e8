//! What the calls that draw answer: to damaged input, whose output buffers stay as they were; and that they answer 0 to
//! other input. What they then write is in [`draws`](crate::draws), for a few of them.

use crate::text::{list, Equation, File};
use lomvuze_reference::field::P;
use lomvuze_trials::{put, Call, Honest, Name, Random, REFERENCE};
use std::collections::BTreeMap;

const NAMES: [Name; 3] = [Name::DrawChallenge, Name::DrawPositions, Name::DrawR];

/// The definition of a call, and its result's fields for the output buffers.
fn definition(name: Name) -> (&'static str, &'static [&'static str]) {
    match name {
        Name::DrawChallenge => ("draw_challenge", &["seed", "challenge"]),
        Name::DrawPositions => ("draw_positions", &["positions"]),
        Name::DrawR => ("draw_r", &["r"]),
        _ => unreachable!(),
    }
}

/// The reference's answer, and the equation that has it.
fn answered(call: &Call) -> (u64, Equation) {
    let (name, outputs) = definition(call.name);
    let buffers = call.inputs.iter().chain(&call.outputs).map(list);
    let arguments = call.numbers.iter().map(u32::to_string).chain(buffers).collect::<Vec<_>>().join(" ");
    let mut after = call.clone();
    let answer = after.run(&REFERENCE);
    let fields =
        outputs.iter().zip(&after.outputs).map(|(name, buffer)| format!("; {name} = {}", list(buffer)));
    let (left, right) = match answer {
        0 => (format!("({name} {arguments}).answer"), "0".to_string()),
        _ => (
            format!("{name} {arguments}"),
            format!("record {{ answer = {answer}{} }}", fields.collect::<String>()),
        ),
    };
    let (unfolding, proof) = match (call.name, answer) {
        (Name::DrawPositions, _) | (_, 2 | 3) => (name, "refl".to_string()),
        (_, 0) => ("baby_bear val ofℕ", format!("λ i. ({name}-runs {arguments} i).answer")),
        _ => ("baby_bear val ofℕ", format!("{name}-runs {arguments} ∙ refl")),
    };
    (answer, Equation { left, right, unfolding: format!("every all_below numbers {unfolding}"), proof })
}

/// A call that is accepted, with k = 2.
fn honest(random: &mut Random, name: Name, [m, n, l, t]: [usize; 4]) -> Call {
    let list = Honest::random(random, m as u32, n as u32, 2, l as u32);
    Call::over(random, name, list, t)
}

/// Calls of two items with one number on either side of what a check permits.
fn edges(random: &mut Random, name: Name) -> Vec<Call> {
    let (call, mut all) = (&honest(random, name, [1, 2, 2, 1]), vec![]);
    let mut add = |change: &dyn Fn(&mut Call)| {
        let mut edge = call.clone();
        change(&mut edge);
        all.push(edge);
    };
    for i in 0..call.inputs.len() {
        for at in call.first_inputs_of(i) {
            for number in [0, 2, P - 1] {
                add(&|edge| put(&mut edge.inputs[i], at, number));
            }
        }
        if let Some(at) = call.elements_of(i).last() {
            for number in [P - 1, P] {
                add(&|edge| put(&mut edge.inputs[i], *at, number));
            }
        }
    }
    if let (Some(t), Some(a)) = (call.place_of("t"), call.place_of("challenge")) {
        let (l, most) = (call.number("l") as u32, 4 * call.number("k") as u32);
        for challenge in [l - 1, l, P - 1, P] {
            add(&|edge| edge.numbers[a] = challenge);
        }
        for count in [0, 1, most, most + 1] {
            add(&|edge| {
                edge.numbers[t] = count;
                edge.outputs[0].resize(4 * count as usize, 7);
            });
        }
    }
    all
}

/// A call with each check failing from one on, or with random damage.
fn damaged(random: &mut Random, name: Name) -> Call {
    let sizes = [random.below(2), 1 + random.below(2), 1 + random.below(2), 1 + random.below(2)];
    let mut call = honest(random, name, sizes);
    if random.below(2) == 0 {
        (0..1 + random.below(3)).for_each(|_| call.damage(random));
        return call;
    }
    let first = random.below(name.checks().len());
    for check in name.checks()[first..].iter().rev() {
        call.fail(random, *check);
    }
    call
}

/// How many equations each call gets for each answer, beside the edges.
const EACH: usize = 6;

const HEAD: &str = "-- What the calls that draw answer, and what their output buffers hold after a refusal.
use Rattle.std.specs.Prelude.{◌≡◌, refl, List, [], ◌∷◌}
use Rattle.std.proofs.Common.{◌∙◌}
use Rattle.field.specs.BabyBear.{baby_bear, val, ofℕ}
use Rattle.numbers.specs.Numbers.{numbers, all_below}
use Rattle.theory.specs.Checks.{every}
use Rattle.draw.specs.Draw.{draw_challenge, draw_positions, draw_r}
use Rattle.agreement.specs.Runs.{draw_challenge-runs, draw_r-runs}
";

pub fn answers() -> File {
    let random = &mut Random::new(10);
    let mut equations = vec![];
    for name in NAMES {
        equations.extend(edges(random, name).iter().map(|edge| answered(edge).1));
        let mut counts = BTreeMap::new();
        for _ in 0..200 {
            let (answer, equation) = answered(&damaged(random, name));
            let count = counts.entry(answer as u32).or_insert(0);
            if *count < EACH {
                *count += 1;
                equations.push(equation);
            }
        }
        assert!(
            name.checks().iter().chain(&[0]).all(|answer| counts.get(answer) == Some(&EACH)),
            "{counts:?}"
        );
    }
    File { name: "Drawing", head: HEAD.to_string(), equations }
}
