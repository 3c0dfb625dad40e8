//! Points, codewords, entries and digests.

use crate::text::{elements, list, numbers, Equation, File};
use lomvuze_reference::element_bytes;
use lomvuze_reference::field::{Element, P};
use lomvuze_reference::{code, sha256, tree};
use lomvuze_trials::{number_at, points as samples, Random};

/// The reference's points, proved to be the definition's: first the table of 256, then every (64 / k)-th of them.
pub fn points() -> String {
    let mut text = "-- The points of the code as numbers.
use Rattle.std.specs.Prelude.{◌≡◌, refl, List, [], ◌∷◌, map, ℕ}
use Rattle.std.proofs.Common.{sym, ◌∙◌}
use Rattle.field.specs.BabyBear.{val}
use Rattle.code.specs.Points.{points}
use Rattle.code.proofs.Generator.{powers_from, table-points}
use Rattle.code.proofs.Taken.{taken-points}
use Rattle.agreement.specs.Elements.{listed}
"
    .to_string();
    let table = |k| numbers(&code::built_in_points(k));
    text += &format!(
        "\nabbrev pub table : List ℕ\ntable = {}\n\npub whole : table ≡ map val (points 64)\nunfolding powers_from\nwhole = table-points table refl tt\n",
        table(64)
    );
    for k in [2, 4, 8, 16, 32, 64] {
        text += &format!(
            "\npub points-{k} : points {k} ≡ listed {}\npoints-{k} = sym (taken-points table whole {k} refl)\n",
            table(k)
        );
    }
    text
}

/// The points that a call uses which is lent these bytes.
pub fn used(k: usize, lent: &[u8]) -> Vec<Element> {
    match lent {
        [] => code::built_in_points(k),
        _ => lent.chunks(4).map(|point| Element::new(number_at(point, 0)).unwrap()).collect(),
    }
}

/// The codeword of w where these points are lent, none for the built-in ones.
fn codeword_of(lent: &[u8], w: &[Element]) -> Equation {
    let k = w.len();
    let computed = "unfold baby_bear val ofℕ pow in refl";
    Equation {
        left: format!("map val (codeword_of {k} {} {})", list(lent), elements(w)),
        right: numbers(&code::codeword(&used(k, lent), w)),
        unfolding: "codeword value_at numbers val".to_string(),
        proof: if lent.is_empty() { format!("rw (points-{k}) ({computed})") } else { computed.to_string() },
    }
}

/// Case 9, the same witness at other points, and random witnesses at the built-in points and at random ones.
pub fn codewords() -> File {
    let random = &mut Random::new(5);
    let mut equations = vec![codeword_of(&[], &witness()), codeword_of(&lent(), &witness())];
    for (k, count) in [(2, 30), (4, 15), (8, 4), (16, 1)] {
        equations.extend((0..count).map(|_| codeword_of(&[], &random.elements(k))));
    }
    for (k, count) in [(2, 12), (4, 6), (8, 2)] {
        for _ in 0..count {
            let points = samples::different(random, k);
            equations.push(codeword_of(&points, &random.elements(k as usize)));
        }
    }
    let head = "-- Codewords of witnesses.
use Rattle.std.specs.Prelude.{◌≡◌, refl, List, [], ◌∷◌, map}
use Rattle.algebra.specs.Polynomial.{pow}
use Rattle.field.specs.BabyBear.{baby_bear, val, ofℕ}
use Rattle.numbers.specs.Numbers.{numbers}
use Rattle.code.specs.Codeword.{codeword, value_at}
use Rattle.theory.specs.Fp.{codeword_of}
use Rattle.agreement.specs.Elements.{listed}
use Rattle.agreement.specs.Points.{points-2, points-4, points-8, points-16}
"
    .to_string();
    File { name: "Codewords", head, equations }
}

/// Entries at positions that take one byte to four.
pub fn entries() -> File {
    let random = &mut Random::new(6);
    let equations = [0, 255, 256, 258, 65_535, 65_536, 1 << 24, u32::MAX as usize].map(|position| {
        let value = random.element();
        Equation {
            left: format!("entry {position} (bytes4 {})", value.number()),
            right: list(code::entry(position, value)),
            unfolding: "entry".to_string(),
            proof: "refl".to_string(),
        }
    });
    let head = "-- Entries of a tree: the position, then the value.
use Rattle.std.specs.Prelude.{◌≡◌, refl, List, [], ◌∷◌}
use Rattle.numbers.specs.Numbers.{bytes4}
use Rattle.tree.specs.Entry.{entry}
"
    .to_string();
    File { name: "Entries", head, equations: equations.into() }
}

/// The witness whose tree is worked out digest by digest, since a digest takes the prover most of a second.
pub fn witness() -> Vec<Element> {
    [2, 3].map(Element::reduce).to_vec()
}

/// Points to be lent with it, the least and the greatest element among them.
pub fn lent() -> Vec<u8> {
    element_bytes(&[0, 1, P - 1, 7, 2, 1_000_000_007, P - 2, 3].map(|point| Element::new(point).unwrap()))
}

/// Every digest of the tree over the witness's codeword, from the leaves upwards, and then its root and that codeword's,
/// for the built-in points and for the lent ones.
pub fn digests() -> File {
    let mut equations = vec![];
    for (points, codeword_numbers) in [(vec![], "codeword-numbers"), (lent(), "lent-codeword-numbers")] {
        digests_at(&points, codeword_numbers, &mut equations);
    }
    let head = "-- The digests of the trees over two codewords of one witness, their roots, and the codewords as elements.
use Rattle.std.specs.Prelude.{◌≡◌, refl, List, [], ◌∷◌, ℕ}
use Rattle.std.proofs.Common.{sym, ◌∙◌, ap, ap₂}
use Rattle.field.specs.BabyBear.{baby_bear, F, val, ofℕ}
use Rattle.tree.specs.Merkle.{leaf_string, node_string, root}
use Rattle.tree.specs.Entry.{entry}
use Rattle.code.specs.Points.{depth}
use Rattle.theory.specs.Items.{leaves}
use Rattle.theory.specs.Fp.{sha, codeword_of, witness_root}
use Rattle.agreement.specs.Elements.{listed}
use Rattle.agreement.specs.Runs.{numbers-of}
use Rattle.agreement.specs.Codewords.{equation-0 as codeword-numbers, equation-1 as lent-codeword-numbers}
"
    .to_string()
        + USE_SHA_256;
    File { name: "Digests", head, equations }
}

/// The definitions that a digest is computed by, and where they stand.
const SHA_256: &str = "block_count digest bytes hash pad words compress in_bytes up_to K H₀ zeros padding scheduled schedule round_with rounds sum ROTR Ch Maj Σ₀ Σ₁ σ₀ σ₁";
pub const USE_SHA_256: &str = "use Rattle.hash.specs.Word.{ROTR, Ch, Maj, Σ₀, Σ₁, σ₀, σ₁}
use Rattle.hash.specs.Sha256.{block_count, digest, bytes, hash, pad, words, compress, in_bytes, up_to, K, H₀, zeros, padding, scheduled, schedule, round_with, rounds, sum}
";

/// The digest of a message, which is given as a term.
pub fn digest_of(message: String, digest: &sha256::Digest) -> Equation {
    Equation {
        left: format!("digest ({message})"),
        right: list(digest),
        unfolding: SHA_256.to_string(),
        proof: "refl".to_string(),
    }
}

/// The digests of one tree: its root, and the name of the path from the tree's own term to it.
fn tree_digests(codeword: &[Element], equations: &mut Vec<Equation>) -> (sha256::Digest, String) {
    // A digest of the current level, and the name of the path to it.
    let mut level: Vec<(sha256::Digest, String)> = vec![];
    for entry in code::entries(codeword) {
        let digest = tree::leaf(&entry);
        level.push((digest, format!("equation-{}", equations.len())));
        equations.push(digest_of(format!("leaf_string {}", list(entry)), &digest));
    }
    while level.len() > 1 {
        let mut next = vec![];
        for pair in level.chunks(2) {
            let [(left, left_path), (right, right_path)] = pair else { panic!() };
            let digest = tree::node(left, right);
            let joined = format!("equation-{}", equations.len());
            equations.push(digest_of(format!("node_string {} {}", list(left), list(right)), &digest));
            next.push((digest, format!("(ap₂ {{C = List ℕ}} (λ (s t : List ℕ). digest (node_string s t)) {left_path} {right_path} ∙ {joined})")));
        }
        level = next;
    }
    level.remove(0)
}

/// The digests of one tree, and what they give: its root; the codeword; the root of the witness.
fn digests_at(lent: &[u8], codeword_numbers: &str, equations: &mut Vec<Equation>) {
    let w = witness();
    let codeword = code::codeword(&used(w.len(), lent), &w);
    let (root, path) = tree_digests(&codeword, equations);
    let (k, w, codeword) = (w.len(), format!("{} {}", list(lent), elements(&w)), elements(&codeword));
    equations.push(Equation {
        left: format!("root digest (depth {k}) (leaves baby_bear sha {codeword})"),
        right: list(root),
        unfolding: "root entry depth val ofℕ".to_string(),
        proof: path,
    });
    equations.push(Equation {
        left: format!("codeword_of {k} {w}"),
        right: codeword,
        unfolding: "val".to_string(),
        proof: format!("sym (numbers-of (codeword_of {k} {w})) ∙ ap listed {codeword_numbers}"),
    });
    equations.push(Equation {
        left: format!("witness_root {k} {w}"),
        right: list(root),
        unfolding: "val".to_string(),
        proof: format!(
            "ap (λ (vs : List F). root digest (depth {k}) (leaves baby_bear sha vs)) equation-{} ∙ equation-{}",
            equations.len() - 1,
            equations.len() - 2
        ),
    });
}
