//! Draws by hash: the strings that are hashed, the numbers in the first bytes of digests, and a few draws worked out from
//! the digests of their strings.

use crate::codes::{digest_of, USE_SHA_256};
use crate::instance::Instance;
use crate::text::{list, Equation, File};
use lomvuze_reference::claims::{self, Item};
use lomvuze_reference::draws;
use lomvuze_reference::field::{Element, ONE, P};
use lomvuze_reference::sha256::{digest, Digest};
use lomvuze_reference::{element_bytes, item_bytes};
use lomvuze_trials::{bytes, Random};

// ---- The strings that are hashed, as the definitions write them

fn seed_arguments(sizes: (usize, usize, usize), items: &[Item], quotient: &[Element]) -> String {
    let ((m, n, k), l) = (sizes, items.len());
    let items = items.iter().flat_map(item_bytes);
    format!("{m} {n} {k} {l} {} {}", list(items), list(element_bytes(quotient)))
}

fn position_arguments(seed: &Digest, challenge: Element, root: &Digest, j: usize) -> String {
    format!("{} {} {} {j}", list(seed), challenge.number(), list(root))
}

fn r_arguments(root: &Digest, x: &[Element], j: usize) -> String {
    format!("{} {} {j}", list(root), list(element_bytes(x)))
}

fn by_computation(left: String, right: String, unfolding: &str) -> Equation {
    Equation { left, right, unfolding: unfolding.to_string(), proof: "refl".to_string() }
}

/// Of random items, quotients, seeds, roots and x; one item, m = 0 and the greatest challenge among them.
fn strings(random: &mut Random) -> Vec<Equation> {
    let mut equations = vec![];
    let mut add = |left: String, message: Vec<u8>| {
        equations.push(by_computation(left, list(message), ""));
    };
    for (m, n, k, l) in
        [(0, 1, 2, 1), (0, 2, 4, 2), (1, 1, 8, 1), (1, 2, 16, 2), (2, 1, 32, 2), (0, 1, 64, 3)]
    {
        let items = Instance::random(random, m, n, 2, l).items;
        let quotient = random.elements(claims::quotient_count(m, l));
        let arguments = seed_arguments((m, n, k), &items, &quotient);
        add(format!("seed_message {arguments}"), draws::seed_message((m, n, k), &items, &quotient));
    }
    for j in [0, 1, 5, 255] {
        let (seed, root, challenge) = (random.digest(), random.digest(), random.element());
        add(format!("challenge_message {}", list(seed)), draws::challenge_message(&seed));
        for challenge in [challenge, Element::reduce(P as u64 - 1)] {
            let arguments = position_arguments(&seed, challenge, &root, j);
            add(format!("position_message {arguments}"), draws::position_message(&seed, challenge, &root, j));
        }
        let x = random.inputs(1 + j % 4);
        add(format!("r_message {}", r_arguments(&root, &x, j)), draws::r_message(&root, &x, j));
    }
    equations
}

/// The numbers in the first four and eight bytes: of the least digest, of the greatest, and of random ones.
fn first_bytes(random: &mut Random) -> Vec<Equation> {
    let digests = [[0; 32], [0xFF; 32], random.digest(), random.digest()];
    let equations = digests.iter().flat_map(|digest| {
        let (four, eight) = (draws::first_4_bytes(digest), draws::first_8_bytes(digest));
        [("four", four as u64), ("eight", eight)].map(|(name, number)| {
            by_computation(format!("{name} {}", list(digest)), number.to_string(), "numbers")
        })
    });
    equations.collect()
}

// ---- Draws worked out

/// Digests, and equations that use them. Every draw names the digest of its string, and takes a remainder of it.
struct Worked {
    digests: Vec<Equation>,
    equations: Vec<Equation>,
}

impl Worked {
    /// The name of the equation between a string's digest and its bytes.
    fn digest(&mut self, string: String, message: &[u8]) -> String {
        self.digests.push(digest_of(string, &digest(message)));
        format!("digest-{}", self.digests.len() - 1)
    }

    /// The name of the equation between a draw and its number.
    fn drawn(&mut self, left: String, right: u32, remainder: String, digest: &str) -> String {
        self.equations.push(Equation {
            unfolding: format!("{} numbers", left.split(' ').next().unwrap()),
            left,
            right: right.to_string(),
            proof: format!("ap (λ (d : List ℕ). {remainder}) {digest}"),
        });
        self.last()
    }

    fn last(&self) -> String {
        format!("equation-{}", self.equations.len() - 1)
    }
}

/// The seed of l items with one input and their quotient, the challenge that it gives for any count of items, and the call
/// that draws both.
fn challenges(worked: &mut Worked, random: &mut Random, l: usize) {
    let items: Vec<Item> = (0..l)
        .map(|_| Item { e: random.element(), r: vec![], x: vec![ONE], root: random.digest() })
        .collect();
    let (sizes, quotient) = ((0, 1, 2), random.elements(l - 1));
    let arguments = seed_arguments(sizes, &items, &quotient);
    let digest =
        worked.digest(format!("seed_message {arguments}"), &draws::seed_message(sizes, &items, &quotient));
    let seed = draws::seed(sizes, &items, &quotient);
    worked.equations.push(Equation {
        left: format!("seed_of {arguments}"),
        right: list(seed),
        unfolding: "seed_of".to_string(),
        proof: digest,
    });
    let seed_is = worked.last();

    let digest = worked.digest(format!("challenge_message {}", list(seed)), &draws::challenge_message(&seed));
    let challenge_is = [1, 2, 3, 4, 5, 6, 7, 8].map(|l| {
        let challenge = draws::challenge(l, &seed).number();
        let remainder = format!("{l} + eight d % (p - {l})");
        worked.drawn(format!("challenge_of {l} {}", list(seed)), challenge, remainder, &digest)
    });
    let arguments = format!("{arguments} {} {}", list(random.bytes(32)), list(random.bytes(4)));
    let challenge = list(element_bytes(&[draws::challenge(l, &seed)]));
    worked.equations.push(Equation {
        left: format!("draw_challenge {arguments}"),
        right: format!("record {{ answer = 0; seed = {}; challenge = {challenge} }}", list(seed)),
        unfolding: format!("{TESTS} baby_bear val ofℕ"),
        proof: format!(
            "draw_challenge-runs {arguments} ∙ (λ i. record {{ answer = 0; seed = {seed_is} i; challenge = bytes4 ((ap (challenge_of {l}) {seed_is} ∙ {}) i) }})",
            challenge_is[l - 1]
        ),
    });
}

/// Two positions for every k, and the call that draws them for k = 4.
fn positions(worked: &mut Worked, random: &mut Random) {
    let (seed, root, challenge) = (random.digest(), random.digest(), random.element());
    let mut drawn = [vec![], vec![]];
    for (j, drawn) in drawn.iter_mut().enumerate() {
        let arguments = position_arguments(&seed, challenge, &root, j);
        let message = draws::position_message(&seed, challenge, &root, j);
        let digest = worked.digest(format!("position_message {arguments}"), &message);
        for k in [2, 4, 8, 16, 32, 64] {
            let position = draws::position(k, &seed, challenge, &root, j);
            let left = format!("position_of {k} {arguments}");
            let path = worked.drawn(left, position, format!("four d % (4 * {k})"), &digest);
            drawn.push((position, path));
        }
    }
    let [first, second] = drawn.map(|drawn| drawn[1].clone());
    let before = list(random.bytes(8));
    worked.equations.push(Equation {
        left: format!("draw_positions 4 1 2 {} {} {} {before}", challenge.number(), list(seed), list(root)),
        right: format!("record {{ answer = 0; positions = {} }}", list(bytes(&[first.0, second.0]))),
        unfolding: format!("draw_positions {TESTS}"),
        proof: format!(
            "λ i. record {{ answer = 0; positions = bytes ({} i ∷ {} i ∷ []) }}",
            first.1, second.1
        ),
    });
}

/// Two numbers r of an item with two inputs and the call that draws them, and the last one that the greatest m has.
fn numbers_r(worked: &mut Worked, random: &mut Random) {
    let (root, x) = (random.digest(), random.inputs(2));
    let r = |j| draws::r(&root, &x, j);
    let path = [0, 1, 5].map(|j| {
        let arguments = r_arguments(&root, &x, j);
        let digest = worked.digest(format!("r_message {arguments}"), &draws::r_message(&root, &x, j));
        worked.drawn(format!("r_of {arguments}"), r(j).number(), "eight d % p".to_string(), &digest)
    });
    for m in [0, 2] {
        let (root, x, before) = (list(root), list(element_bytes(&x)), list(random.bytes(4 * m)));
        let arguments = format!("{m} 2 {root} {x} {before}");
        let drawn: Vec<Element> = (0..m).map(r).collect();
        let paths: String = path[..m].iter().map(|path| format!("{path} i ∷ ")).collect();
        worked.equations.push(Equation {
            left: format!("draw_r {arguments}"),
            right: format!("record {{ answer = 0; r = {} }}", list(element_bytes(&drawn))),
            unfolding: format!("{TESTS} baby_bear val ofℕ"),
            proof: format!("draw_r-runs {arguments} ∙ (λ i. record {{ answer = 0; r = bytes ({paths}[]) }})"),
        });
    }
}

/// The definitions that the checks and the written numbers are computed by.
const TESTS: &str = "every all_below numbers bytes";

/// The digests that draws are worked out from, and the equations on draws.
pub fn files() -> [File; 2] {
    let random = &mut Random::new(9);
    let mut worked = Worked { digests: vec![], equations: strings(random) };
    worked.equations.extend(first_bytes(random));
    challenges(&mut worked, random, 1);
    challenges(&mut worked, random, 2);
    positions(&mut worked, random);
    numbers_r(&mut worked, random);

    let head = "-- The digests of strings that draws hash.
use Rattle.std.specs.Prelude.{◌≡◌, refl, List, [], ◌∷◌}
use Rattle.draw.specs.Draw.{seed_message, challenge_message, position_message, r_message}
";
    let digests =
        File { name: "DrawnDigests", head: head.to_string() + USE_SHA_256, equations: worked.digests };
    let names: Vec<String> =
        (0..digests.equations.len()).map(|i| format!("equation-{i} as digest-{i}")).collect();
    let head = "-- Draws: what is hashed, and what is drawn.
use Rattle.std.specs.Prelude.{◌≡◌, refl, List, [], ◌∷◌, ℕ, ◌+◌, ◌-◌, ◌*◌, ◌%◌}
use Rattle.std.proofs.Common.{◌∙◌, ap}
use Rattle.field.specs.BabyBear.{baby_bear, p, val, ofℕ}
use Rattle.numbers.specs.Numbers.{numbers, all_below, bytes4, bytes}
use Rattle.theory.specs.Checks.{every}
use Rattle.draw.specs.Draw.{seed_message, challenge_message, position_message, r_message, four, eight}
use Rattle.draw.specs.Draw.{seed_of, challenge_of, position_of, r_of, draw_challenge, draw_positions, draw_r}
use Rattle.agreement.specs.Runs.{draw_challenge-runs, draw_r-runs}
"
    .to_string()
        + &format!("use Rattle.agreement.specs.DrawnDigests.{{{}}}\n", names.join(", "));
    [digests, File { name: "Draws", head, equations: worked.equations }]
}
