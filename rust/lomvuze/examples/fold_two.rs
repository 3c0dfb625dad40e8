//! Folds two statements, 2 × 3 = 6 and 4 × 5 = 20, into one, opens each witness and the new one, verifies the
//! fold and decides the new item. r, challenge and positions are drawn. Prints each result and what the verdict covers; its
//! output is in `fold_two.expected`.
//!
//! `cargo run --release --offline -p lomvuze --example fold_two -- [CHALLENGE]`
//!
//! The challenge is the drawn one where none is given. The exit status is 0 where every call accepts, 1 where one
//! refuses, and 2 where the argument is no number.

use lomvuze::{cast, decide, draw_challenge, draw_positions, draw_r, encode, fold, open, quotient, verify};
use lomvuze::{
    Challenge, Circuit, Item, Opening, Points, PublicInputs, Refusal, Sizes, Verified, Witness, P,
};
use std::env::args_os;
use std::process::ExitCode;

fn main() -> ExitCode {
    let argument = args_os().nth(1).map(|text| text.to_string_lossy().into_owned());
    let Ok(lent) = argument.as_ref().map(|text| text.parse::<u32>()).transpose() else {
        eprintln!("fold_two: '{}' is no number of 32 bits", argument.unwrap_or_default());
        eprintln!("usage: fold_two [CHALLENGE]");
        return ExitCode::from(2);
    };
    match run(lent.map(Challenge::from)) {
        Ok(()) => ExitCode::SUCCESS,
        Err(refusal) => {
            println!("refused by check {}: {refusal}", refusal.number());
            println!("covered: 0 of 2 items");
            ExitCode::FAILURE
        }
    }
}

fn run(lent: Option<Challenge>) -> Result<(), Refusal> {
    // One row: w0 × w1 = x1, where x0 is 1. The columns are x0, x1, w0 and w1; an entry is row, column and value.
    let sizes = Sizes { m: 0, n: 2, k: 2 };
    let circuit = Circuit::new([(0, 2, 1)], [(0, 3, 1)], [(0, 1, 1)]);
    let points = Points::built_in(); // that were agreed on: here those of the library
    let witnesses = [Witness::from([2, 3]), Witness::from([4, 5])];
    let items = [
        cast_drawn(sizes, &points, &circuit, &PublicInputs::from([1, 6]), &witnesses[0])?,
        cast_drawn(sizes, &points, &circuit, &PublicInputs::from([1, 20]), &witnesses[1])?,
    ];
    items.iter().enumerate().for_each(|(i, item)| print_item(&format!("item {i}"), item));
    let quotient = quotient(sizes, &points, &circuit, &items, &witnesses)?;
    println!("quotient: {quotient}");

    // The challenge is drawn from items and quotient.
    let drawn = draw_challenge(sizes, &items, &quotient)?;
    let challenge = lent.unwrap_or(drawn.challenge);
    println!("seed: {}\nchallenge: {challenge}", drawn.seed);
    let folded = fold(sizes, challenge, &points, &circuit, &items, &witnesses)?;
    print_item("new item", &folded.item);
    println!("new witness: {}", folded.witness);

    // And the positions from these and the new root. They repeat: 4k are drawn, of which k at least have to be different.
    let (l, t) = (items.len(), 4 * sizes.k as usize);
    let positions = draw_positions(sizes, l, t, challenge, &drawn.seed, &folded.item.root)?;
    println!("positions: {positions}, {} different", positions.count_different());
    assert!(positions.count_different() >= sizes.k as usize);
    let opened = witnesses.iter().chain([&folded.witness]).map(|w| open(sizes, &points, w, &positions));
    let openings = opened.collect::<Result<Vec<_>, _>>()?;
    openings.iter().enumerate().for_each(|(i, opened)| print_openings(i, opened));

    let Verified { verdict, blocks } =
        verify(sizes, challenge, &items, &positions, &quotient, &folded.item, &openings);
    verdict?;
    println!("verify: accepted; {blocks} of at most {} SHA-256 blocks", sizes.verify_blocks(l, t));
    decide(sizes, &points, &circuit, &folded.item, &folded.witness)?;
    println!("decide: accepted\ncovered: 2 of 2 items, 0 and 1");
    print_bound(sizes, l);
    Ok(())
}

/// The item of a statement. Its r is drawn from its root and x; for one row it is empty.
fn cast_drawn(
    sizes: Sizes,
    points: &Points,
    circuit: &Circuit,
    x: &PublicInputs,
    witness: &Witness,
) -> Result<Item, Refusal> {
    let root = encode(sizes, points, witness)?.root;
    cast(sizes, points, circuit, &draw_r(sizes, &root, x)?, x, witness)
}

/// Covered is not true.
fn print_bound(sizes: Sizes, l: usize) {
    let (bound, permitted, k) = (sizes.challenge_bound(l), P as usize - l, sizes.k);
    println!("at up to {bound} of the {permitted} challenges a list with a false item can pass, for one quotient and one set of {k} positions (more by a SHA-256 collision)");
}

fn print_item(name: &str, item: &Item) {
    let root: String = item.root.iter().map(|byte| format!("{byte:02x}")).collect();
    println!("{name}: e = {}, x = {}, root = {root}", item.e, item.x);
}

fn print_openings(i: usize, openings: &[Opening]) {
    let values: Vec<u32> = openings.iter().map(|opening| opening.value).collect();
    println!("openings {i}: {values:?}, {} digests each", openings[0].path.len());
}
