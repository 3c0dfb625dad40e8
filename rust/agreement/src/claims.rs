//! Values, weights, combinations and quotients.

use crate::instance::{circuit as random_circuit, Instance};
use crate::inverses::{combined, computed, difference, known_inverses, node_inverses, vanishing};
use crate::text::{circuit, elements, list, numbers, Equation, File};
use lomvuze_reference::claims::{self, Circuit, Entry, Item};
use lomvuze_reference::field::Element;
use lomvuze_trials::Random;

const HEAD: &str = "use Rattle.std.specs.Prelude.{◌≡◌, refl, List, [], ◌∷◌, ◌++◌, map, ℕ}
use Rattle.algebra.specs.Lists.{build}
use Rattle.field.specs.BabyBear.{baby_bear, R, F, val, ofℕ}
use Rattle.theory.specs.R1cs.{value, weight}
use Rattle.theory.specs.Items.{Item}
use Rattle.theory.specs.Combination.{L, Z, item_at, new_r, new_x, new_w, new_e, quotient_of}
use Rattle.agreement.specs.Elements.{listed, entry, item, ith}
";

fn head(about: &str) -> String {
    let inverses: Vec<String> = known_inverses().into_iter().map(|known| known.name).collect();
    format!("-- {about}\n{HEAD}use Rattle.agreement.specs.Inverses.{{{}}}\n", inverses.join(", "))
}

pub fn number(n: usize) -> Element {
    Element::reduce(n as u64)
}

/// The paper's circuit, with 1 as first input: w0 × w1 = x1.
fn product() -> Circuit {
    let one_at = |column| vec![Entry { row: 0, column, value: number(1) }];
    Circuit { a: one_at(2), b: one_at(3), c: one_at(1) }
}

fn of(numbers: &[usize]) -> Vec<Element> {
    numbers.iter().map(|n| number(*n)).collect()
}

fn value_of(matrices: &Circuit, r: &[Element], x: &[Element], w: &[Element]) -> Equation {
    Equation {
        left: format!("val (value R {} {} {} {})", circuit(matrices), elements(r), elements(x), elements(w)),
        right: claims::value(matrices, r, x, w).number().to_string(),
        unfolding: "baby_bear val ofℕ".to_string(),
        proof: "refl".to_string(),
    }
}

/// Cases 1 and 2, and random circuits.
pub fn values() -> File {
    let random = &mut Random::new(1);
    let mut equations = vec![
        value_of(&product(), &[], &of(&[1, 6]), &of(&[2, 3])),
        value_of(&product(), &[], &of(&[1, 21]), &of(&[4, 5])),
    ];
    for _ in 0..200 {
        let (m, n, k) = (random.below(4), 1 + random.below(3), 2 << random.below(2));
        let matrices = random_circuit(random, m, n + k);
        let (r, x, w) = (random.elements(m), random.elements(n), random.elements(k));
        equations.push(value_of(&matrices, &r, &x, &w));
    }
    File { name: "Values", head: head("The value of a circuit at r, x and w."), equations }
}

fn weight_of(r: &[Element], j: usize) -> Equation {
    Equation {
        left: format!("val (weight R {} {j})", elements(r)),
        right: claims::weight(r, j).number().to_string(),
        unfolding: "baby_bear val ofℕ".to_string(),
        proof: "refl".to_string(),
    }
}

/// Case 3, and random rows.
pub fn weights() -> File {
    let random = &mut Random::new(2);
    let mut equations: Vec<Equation> = (0..4).map(|j| weight_of(&of(&[2, 5]), j)).collect();
    for m in (0..7).chain(2..7) {
        for _ in 0..5 {
            let r = random.elements(m);
            equations.push(weight_of(&r, random.below(1 << m)));
        }
    }
    File { name: "Weights", head: head("The weight of a row."), equations }
}

fn item(item: &Item) -> String {
    format!("item {} {} {} {}", item.e.number(), numbers(&item.r), numbers(&item.x), "[]")
}

fn basis_at(l: usize, a: Element) -> Equation {
    let basis: Vec<Element> = (0..l).map(|i| claims::lagrange(l, i).at(a)).collect();
    Equation {
        left: format!("map val (build {l} (λ i. L baby_bear {l} i (ofℕ {})))", a.number()),
        right: numbers(&basis),
        unfolding: "val".to_string(),
        proof: combined(l),
    }
}

fn vanishing_at(l: usize, a: Element) -> Equation {
    Equation {
        left: format!("val (Z baby_bear {l} (ofℕ {}))", a.number()),
        right: claims::vanishing(l).at(a).number().to_string(),
        unfolding: "val".to_string(),
        proof: computed(vec![]),
    }
}

/// The new e, r, x and w at a challenge, from any quotient.
fn new_at(items: &[Item], witnesses: &[Vec<Element>], quotient: &[Element], a: Element) -> Equation {
    let (m, n, k, l) = (items[0].r.len(), items[0].x.len(), witnesses[0].len(), items.len());
    let (r, x, e) = claims::fold_claim(items, quotient, a);
    let w = claims::fold_witness(witnesses, a);
    let list_of = list(items.iter().map(item));
    let (q, ws) = (elements(quotient), list(witnesses.iter().map(|w| elements(w))));
    let a = format!("(ofℕ {})", a.number());
    Equation {
        left: format!(
            "map val (new_e baby_bear {list_of} {q} {a} ∷ new_r baby_bear {m} {list_of} {a} ++ new_x baby_bear {n} {list_of} {a} ++ new_w baby_bear {k} {l} (ith [] {ws}) {a})"
        ),
        right: numbers(&[&[e][..], &r, &x, &w].concat()),
        unfolding: "item_at val".to_string(),
        proof: combined(l),
    }
}

/// Items (1, x; w) of the paper's circuit with e = 0.
fn paper_items(claims: &[(usize, [usize; 2])]) -> (Vec<Item>, Vec<Vec<Element>>) {
    let items = claims
        .iter()
        .map(|(x, _)| Item { e: number(0), r: vec![], x: of(&[1, *x]), root: [0; 32] })
        .collect();
    (items, claims.iter().map(|(_, w)| of(w)).collect())
}

/// Cases 4 and 6 to 8, and random lists of items.
pub fn combinations() -> File {
    let random = &mut Random::new(3);
    let (good, bad) = (paper_items(&[(6, [2, 3]), (20, [4, 5])]), paper_items(&[(6, [2, 3]), (21, [4, 5])]));
    let mut equations = vec![
        basis_at(2, number(2)),
        new_at(&good.0, &good.1, &of(&[4]), number(2)),
        new_at(&good.0, &good.1, &of(&[4]), number(3)),
        new_at(&bad.0, &bad.1, &of(&[3]), number(2)),
        new_at(&bad.0, &bad.1, &of(&[3]), number(3)),
    ];
    for l in 1..5 {
        for _ in 0..10 {
            let (m, n, k) = (random.below(3), 1 + random.below(2), 2);
            let list_of = Instance::random(random, m, n, k, l);
            let quotient = random.elements(claims::quotient_count(m, l));
            let a = random.element();
            equations.push(basis_at(l, a));
            equations.push(vanishing_at(l, a));
            equations.push(new_at(&list_of.items, &list_of.witnesses, &quotient, a));
        }
    }
    File {
        name: "Combinations",
        head: head("L_i and Z at a challenge, and the new e, r, x and w."),
        equations,
    }
}

fn quotient_of(matrices: &Circuit, items: &[Item], witnesses: &[Vec<Element>]) -> Equation {
    let (m, n, k, l) = (items[0].r.len(), items[0].x.len(), witnesses[0].len(), items.len());
    let quotient = claims::quotient(matrices, items, witnesses).expect("items hold");
    let count = quotient.len();
    let mut inverses = if count == 0 { vec![] } else { node_inverses(l) };
    for i in 0..count {
        inverses.push(vanishing(l, l + i));
        inverses.extend((0..i).map(|j| difference(l + i, l + j)));
    }
    Equation {
        left: format!(
            "map val (quotient_of baby_bear {} {m} {n} {k} {} (ith [] {}))",
            circuit(matrices),
            list(items.iter().map(item)),
            list(witnesses.iter().map(|w| elements(w)))
        ),
        right: numbers(&quotient),
        unfolding: "item_at quotient_of val".to_string(),
        proof: computed(inverses),
    }
}

/// Case 5, and random lists of items that hold. Two coefficients are as many as the prover's rewriting can bear.
pub fn quotients() -> File {
    let random = &mut Random::new(4);
    let good = paper_items(&[(6, [2, 3]), (20, [4, 5])]);
    let mut equations = vec![quotient_of(&product(), &good.0, &good.1)];
    for (m, l) in [(0, 1), (2, 1), (0, 2), (1, 2), (0, 3)] {
        for _ in 0..5 {
            let n = 1 + random.below(2);
            let list_of = Instance::random(random, m, n, 2, l);
            equations.push(quotient_of(&list_of.circuit, &list_of.items, &list_of.witnesses));
        }
    }
    File { name: "Quotients", head: head("The quotient of items that hold."), equations }
}
