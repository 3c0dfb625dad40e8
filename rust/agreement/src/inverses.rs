//! The inverses that proofs of combinations and quotients rewrite with.

use crate::claims::number;
use lomvuze_reference::claims;
use lomvuze_reference::field::Element;

/// An inverse that the definitions use: the inverse of what, the number under it before its remainder is taken, and the
/// reference's inverse.
pub struct Known {
    pub name: String,
    of: String,
    before: u64,
    inverse: Element,
}

/// Of node i - node j.
pub fn difference(i: usize, j: usize) -> Known {
    Known {
        name: format!("inverse-{i}-{j}"),
        of: format!("node baby_bear {i} ⊖ node baby_bear {j}"),
        before: i as u64 + (-number(j)).number() as u64,
        inverse: (number(i) - number(j)).inverse(),
    }
}

/// Of Z over l nodes at the number a beside them.
pub fn vanishing(l: usize, a: usize) -> Known {
    Known {
        name: format!("vanishing-inverse-{l}-{a}"),
        of: format!("Z baby_bear {l} (node baby_bear {a})"),
        before: (0..l).map(|i| (a - i) as u64).product(),
        inverse: claims::vanishing(l).at(number(a)).inverse(),
    }
}

pub fn known_inverses() -> Vec<Known> {
    let mut all = node_inverses(6);
    all.extend([(2, 2), (2, 3), (2, 4), (3, 3), (3, 4)].map(|(l, a)| vanishing(l, a)));
    all
}

pub fn inverses() -> String {
    let mut text = "-- Inverses of differences of small numbers, and of Z beside the nodes. Each is known by its product.
use Rattle.std.specs.Prelude.{◌≡◌, refl}
use Rattle.algebra.proofs.FieldLaws.{inv_unique}
use Rattle.field.specs.BabyBear.{baby_bear, inv, val, ofℕ, ◌⊖◌}
use Rattle.field.proofs.Laws.{val_inj}
use Rattle.theory.specs.Combination.{node, Z}
"
    .to_string();
    for Known { name, of, inverse, .. } in known_inverses() {
        let inverse = inverse.number();
        text += &format!(
            "\npub {name} : inv ({of}) ≡ ofℕ {inverse}\n{name} = inv_unique baby_bear ({of}) (ofℕ {inverse}) (val_inj _ _ (unfold baby_bear val ofℕ in refl))\n"
        );
    }
    text
}

/// The proof that rewrites with the known inverses and computes the rest. The prover takes two inverses for one where the
/// numbers under them are one before their remainder is taken: of such only the first is named.
pub fn computed(inverses: Vec<Known>) -> String {
    let compute = "unfold baby_bear val ofℕ in refl";
    let mut names: Vec<String> = vec![];
    let mut seen: Vec<u64> = vec![];
    for known in inverses {
        if !seen.contains(&known.before) {
            seen.push(known.before);
            names.push(known.name);
        }
    }
    if names.is_empty() {
        return compute.to_string();
    }
    format!("rw ({}) ({compute})", names.join(", "))
}

/// The proof of an equation on a combination of l items.
pub fn combined(l: usize) -> String {
    computed(node_inverses(l))
}

/// 1 / (node i - node j) for the nodes of l items.
pub fn node_inverses(l: usize) -> Vec<Known> {
    let pairs = (0..l).flat_map(|i| (0..l).filter(move |j| *j != i).map(move |j| (i, j)));
    pairs.map(|(i, j)| difference(i, j)).collect()
}
