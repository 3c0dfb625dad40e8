//! The folds of a sheet's items.

use lomvuze::{decide, encode, fold, open, quotient, verify, Verified};
use lomvuze::{draw_challenge, draw_positions, draw_r};
use lomvuze::{Circuit, Item, Points, Refusal, Sheet, Sizes, Witness, MAX_L, P};

/// Why something is not accepted, in words.
pub struct Why(pub String);

impl From<Refusal> for Why {
    fn from(refusal: Refusal) -> Why {
        Why(format!("refused by check {}: {refusal}", refusal.number()))
    }
}

/// An item of the sheet, with the r and the root that it was folded with; and why no verdict covers it.
pub struct Outcome {
    pub item: Item,
    pub uncovered: Option<Why>,
}

impl Outcome {
    pub fn covered_item(&self) -> Option<&Item> {
        self.uncovered.is_none().then_some(&self.item)
    }
}

/// Tests each item of a sheet, and folds those that pass. Prints what each call gives.
pub fn cover(sheet: Sheet) -> Vec<Outcome> {
    let Sheet { sizes, circuit, items, witnesses, .. } = sheet;
    let (mut outcomes, mut passed) = (vec![], vec![]);
    for (i, (mut item, witness)) in items.into_iter().zip(witnesses).enumerate() {
        let left_open = if item.root == [0; 32] { "root left open on the sheet, " } else { "" };
        let tested = test(sizes, &circuit, &mut item, &witness);
        let answer = tested.as_ref().map_or_else(|why| why.0.as_str(), |()| "accepted");
        println!("item {i}: e = {}, r = {}, x = {}, {left_open}{answer}", item.e, item.r, item.x);
        if tested.is_ok() {
            passed.push((i, item.clone(), witness));
        }
        outcomes.push(Outcome { item, uncovered: tested.err().or(Some(Why("in no fold".into()))) });
    }

    for (number, pairs) in passed.chunks(MAX_L).enumerate() {
        let indexes: Vec<usize> = pairs.iter().map(|(i, ..)| *i).collect();
        println!("fold {number}: items {indexes:?}");
        let (items, witnesses): (Vec<_>, Vec<_>) =
            pairs.iter().map(|(_, item, witness)| (item.clone(), witness.clone())).unzip();
        let ran = run(sizes, &circuit, &items, &witnesses);
        if ran.is_ok() {
            let (bound, permitted, k) =
                (sizes.challenge_bound(items.len()), P as usize - items.len(), sizes.k);
            println!("  this verdict covers items {indexes:?}, and does not say that they are true:");
            println!("  at up to {bound} of the {permitted} challenges a list with a false item can pass, for one quotient and one set of {k} positions (more by a SHA-256 collision)");
        }
        for i in indexes {
            outcomes[i].uncovered = ran.as_ref().err().map(|why| Why(format!("fold {number} is {}", why.0)));
        }
    }
    outcomes
}

/// Whether an item of the sheet is a statement that may be folded.
fn test(sizes: Sizes, circuit: &Circuit, item: &mut Item, witness: &Witness) -> Result<(), Why> {
    if !item.is_fresh() {
        return Err(Why("not fresh: its e is not 0".into()));
    }
    if item.root == [0; 32] {
        item.root = encode(sizes, &Points::built_in(), witness)?.root;
    }
    item.r = draw_r(sizes, &item.root, &item.x)?;
    Ok(decide(sizes, &Points::built_in(), circuit, item, witness)?)
}

/// Folds up to 8 items into one, verifies the fold and decides the new item.
fn run(sizes: Sizes, circuit: &Circuit, items: &[Item], witnesses: &[Witness]) -> Result<(), Why> {
    let points = Points::built_in();
    let quotient = quotient(sizes, &points, circuit, items, witnesses)?;
    let drawn = draw_challenge(sizes, items, &quotient)?;
    println!("  challenge: {}", drawn.challenge);
    let folded = fold(sizes, drawn.challenge, &points, circuit, items, witnesses)?;
    println!("  new item: e = {}, r = {}, x = {}", folded.item.e, folded.item.r, folded.item.x);

    // Drawn positions repeat: of 4k, more than k are different as a rule, and here it is counted.
    let (l, t) = (items.len(), 4 * sizes.k as usize);
    let positions = draw_positions(sizes, l, t, drawn.challenge, &drawn.seed, &folded.item.root)?;
    let different = positions.count_different();
    println!("  positions: {t} drawn, {different} different");
    if different < sizes.k as usize {
        return Err(Why(format!("not looked at: {different} different positions, and k is {}", sizes.k)));
    }
    let mut openings = vec![];
    for witness in witnesses.iter().chain([&folded.witness]) {
        openings.push(open(sizes, &points, witness, &positions)?);
    }

    let most = sizes.verify_blocks(l, t);
    let Verified { verdict, blocks } =
        verify(sizes, drawn.challenge, items, &positions, &quotient, &folded.item, &openings);
    let says = verdict.map_or_else(|refusal| Why::from(refusal).0, |()| "accepted".to_string());
    println!("  verify: {says}; {blocks} of at most {most} SHA-256 blocks");
    verdict?;
    decide(sizes, &points, circuit, &folded.item, &folded.witness)?;
    println!("  decide: accepted");
    Ok(())
}
