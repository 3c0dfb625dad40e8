//! The seeds of drawing: messages on either side of a further block, challenges at the ends of their range, an item or
//! a position too many, and calls that two checks would refuse.

use super::seed;
use lomvuze_reference::field::P;
use lomvuze_trials::{put, Call, Honest, Name, Part, Random};
use std::path::PathBuf;

/// None for a call that draws nothing.
pub(super) fn stored(random: &mut Random, name: Name) -> Vec<(PathBuf, Vec<u8>)> {
    match name {
        Name::DrawChallenge => challenges(random),
        Name::DrawPositions => positions(random),
        Name::DrawR => r(random),
        _ => vec![],
    }
}

/// A call that is accepted.
fn call(random: &mut Random, name: Name, [m, n, k, l, t]: [u32; 5]) -> Call {
    let list = Honest::with_entries(random, m, n, k, l, [1; 3]);
    Call::over(random, name, list, t as usize)
}

/// The call with 0 for each first input of a part, and p for the last element that it is lent.
fn with_two_wrong(mut call: Call, part: Part) -> Call {
    let (i, last) = (call.input_of(part).unwrap(), call.inputs.len() - 1);
    for at in call.first_inputs_of(i) {
        put(&mut call.inputs[i], at, 0);
    }
    let at = *call.elements_of(last).last().unwrap();
    put(&mut call.inputs[last], at, P);
    call
}

/// For one item with m = 0, whose quotient is empty, the seed's message has 53 + 4n bytes: two blocks take up to 119.
fn challenges(random: &mut Random) -> Vec<(PathBuf, Vec<u8>)> {
    let one = call(random, Name::DrawChallenge, [0, 1, 2, 1, 1]);
    let fits = call(random, Name::DrawChallenge, [0, 16, 2, 1, 1]);
    let further = call(random, Name::DrawChallenge, [0, 17, 2, 1, 1]);
    let three = call(random, Name::DrawChallenge, [1, 2, 4, 3, 1]);
    let both = with_two_wrong(three, Part::Items);
    let mut shorter = both.clone();
    shorter.outputs[0].pop();
    let mut last = call(random, Name::DrawChallenge, [1, 2, 4, 3, 1]);
    let at = *last.elements_of(0).last().unwrap();
    put(&mut last.inputs[0], at, P);
    let mut nine = call(random, Name::DrawChallenge, [0, 1, 2, 8, 1]);
    nine.numbers[3] += 1;
    nine.inputs[0].extend_from_within(..one.inputs[0].len());
    nine.inputs[1].extend([0; 4]);
    vec![
        seed("0-one-item", &one),
        seed("0-fits", &fits),
        seed("0-further-block", &further),
        seed("3-and-13", &both),
        seed("2-and-3", &shorter),
        seed("3-last-item", &last),
        seed("2-nine-items", &nine),
    ]
}

/// The most positions, and challenges at the ends of the range and beside them.
fn positions(random: &mut Random) -> Vec<(PathBuf, Vec<u8>)> {
    let mut all = call(random, Name::DrawPositions, [0, 1, 64, 8, 256]);
    let mut files = vec![seed("0-all", &all)];
    all.numbers[2] += 1;
    all.outputs[0].extend([0; 4]);
    files.push(seed("2-more-than-all", &all));
    let mut some = call(random, Name::DrawPositions, [0, 1, 8, 4, 3]);
    for (what, challenge) in [("0-least", 4), ("0-most", P - 1), ("5-less", 3), ("5-more", P)] {
        some.numbers[3] = challenge;
        files.push(seed(what, &some));
    }
    some.inputs[1].pop();
    files.push(seed("2-and-5", &some));
    files
}

/// A message has 37 + 4n bytes: one block takes up to 55. With m = 0 the output is empty, and the checks are run.
fn r(random: &mut Random) -> Vec<(PathBuf, Vec<u8>)> {
    let fits = call(random, Name::DrawR, [3, 4, 2, 1, 1]);
    let further = call(random, Name::DrawR, [3, 5, 2, 1, 1]);
    let both = with_two_wrong(further.clone(), Part::X);
    let empty = call(random, Name::DrawR, [0, 3, 2, 1, 1]);
    let mut files = vec![
        seed("0-fits", &fits),
        seed("0-further-block", &further),
        seed("3-and-13", &both),
        seed("0-empty", &empty),
    ];
    for (what, at, number) in [("3-empty", 8, P), ("13-empty", 0, 2)] {
        let mut empty = empty.clone();
        put(&mut empty.inputs[1], at, number);
        files.push(seed(what, &empty));
    }
    files
}
