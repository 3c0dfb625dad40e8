//! The cases of the scope paper that a call can show, with 1 as first input: the circuit w0 × w1 = x1 with m = 0, n = 2,
//! k = 2.

use lomvuze_calls::layout::{ItemLayout, OpeningLayout};
use lomvuze_reference::field::P;
use lomvuze_trials::bytes;
use lomvuze_verdicts as calls;

const A: [u32; 3] = [0, 2, 1];
const B: [u32; 3] = [0, 3, 1];
const C: [u32; 3] = [0, 1, 1];
const ITEM: ItemLayout = ItemLayout { m: 0, n: 2 };
const OPENING: usize = OpeningLayout { k: 2 }.bytes();

fn root(w: [u32; 2]) -> Vec<u8> {
    let (mut code, mut root) = (vec![0; 32], vec![0; 32]);
    assert_eq!(calls::encode(2, &[], &bytes(&w), &mut code, &mut root), 0);
    root
}

/// The item of (1, x; w).
fn item(e: u32, x: u32, w: [u32; 2]) -> Vec<u8> {
    let mut item = vec![0; ITEM.bytes()];
    item[ITEM.e()].copy_from_slice(&bytes(&[e]));
    item[ITEM.x()].copy_from_slice(&bytes(&[1, x]));
    item[ITEM.root()].copy_from_slice(&root(w));
    item
}

fn cast(x: u32, w: [u32; 2]) -> (u32, Vec<u8>) {
    let mut out = vec![0; ITEM.bytes()];
    let [a, b, c] = [A, B, C].map(|entry| bytes(&entry));
    let answer = calls::cast(0, 2, 2, &[], &a, &b, &c, &[], &bytes(&[1, x]), &bytes(&w), &mut out);
    (answer, out)
}

fn decide(e: u32, x: u32, w: [u32; 2]) -> u32 {
    calls::decide(0, 2, 2, &[], &bytes(&A), &bytes(&B), &bytes(&C), &item(e, x, w), &bytes(&w))
}

/// Quotient, new item and new witness.
fn fold(challenge: u32, items: &[(u32, [u32; 2])]) -> [Vec<u8>; 3] {
    let wits: Vec<u8> = items.iter().flat_map(|(_, w)| bytes(w)).collect();
    let items: Vec<Vec<u8>> = items.iter().map(|(x, w)| item(0, *x, *w)).collect();
    let (mut quotient, mut new, mut w) = (vec![0; 4 * (items.len() - 1)], vec![0; ITEM.bytes()], vec![0; 8]);
    let answer = calls::fold(
        0,
        2,
        2,
        items.len() as u32,
        challenge,
        &[],
        &bytes(&A),
        &bytes(&B),
        &bytes(&C),
        &items.concat(),
        &wits,
        &mut quotient,
        &mut new,
        &mut w,
    );
    assert_eq!(answer, 0);
    [quotient, new, w]
}

#[test]
fn c1_and_c2() {
    assert_eq!(cast(6, [2, 3]), (0, item(0, 6, [2, 3])));
    assert_eq!(cast(21, [4, 5]), (11, vec![0; ITEM.bytes()]));
    assert_eq!((decide(0, 6, [2, 3]), decide(P - 1, 21, [4, 5])), (0, 0));
}

#[test]
fn c5_to_c7() {
    let items = [(6, [2, 3]), (20, [4, 5])];
    assert_eq!(fold(2, &items), [bytes(&[4]), item(8, 34, [6, 7]), bytes(&[6, 7])]);
    assert_eq!(fold(3, &items), [bytes(&[4]), item(24, 48, [8, 9]), bytes(&[8, 9])]);
}

/// The fold at a challenge that x, w and e combine to with quotient 3: the answers of verifying it, at all positions,
/// and of deciding it. The items are (1, 6; 2, 3) and (1, 21; 4, 5), both with e 0, of which the second does not hold.
fn verify_and_decide_c8(a: u32) -> (u64, u32) {
    let number = |value: u64| (value % P as u64) as u32;
    let a_64 = a as u64;
    let (x, w) = (number(6 + 15 * a_64), [number(2 + 2 * a_64), number(3 + 2 * a_64)]);
    let e = number(3 * (a_64 * (a_64 - 1) % P as u64));

    let positions = bytes(&[0, 1, 2, 3, 4, 5, 6, 7]);
    let mut opened = vec![0; 3 * 8 * OPENING];
    for (out, w) in opened.chunks_mut(8 * OPENING).zip([[2, 3], [4, 5], w]) {
        assert_eq!(calls::open(2, 8, &[], &bytes(&w), &positions, out), 0);
    }
    let mut openings = vec![0; 3 * 8 * OPENING];
    assert_eq!(calls::interleave(2, 2, 8, &opened, &mut openings), 0);
    let items = [item(0, 6, [2, 3]), item(0, 21, [4, 5])].concat();
    let new_item = item(e, x, w);
    let verified = calls::verify(0, 2, 2, 2, 8, a, &items, &positions, &bytes(&[3]), &new_item, &openings);
    (verified, decide(e, x, w))
}

/// Both calls accept at challenge 2, and deciding refuses at all others that are tried, the least and the greatest
/// among them. (Value and e differ by a polynomial of degree 2 in the challenge, whose roots are 0 and 2.) Verifying
/// hashes 24 openings of 7 blocks.
#[test]
fn c8() {
    let accepted = 64 * 24 * 7;
    assert_eq!((decide(6, 36, [6, 7]), decide(18, 51, [8, 9])), (0, 11));
    assert_eq!(decide(21, 51, [8, 9]), 0);
    assert_eq!(verify_and_decide_c8(2), (accepted, 0));
    for a in (3..1000).chain(P - 1000..P) {
        assert_eq!(verify_and_decide_c8(a), (accepted, 11), "challenge {a}");
    }
}

#[test]
fn c9() {
    let (mut code, mut root) = (vec![0; 32], vec![0; 32]);
    assert_eq!(calls::encode(2, &[], &bytes(&[2, 3]), &mut code, &mut root), 0);
    assert_eq!((&code[..4], &code[16..20]), (&bytes(&[5])[..], &bytes(&[P - 1])[..]));
}

/// No coefficients, and the item back: e, x, root and witness.
#[test]
fn c10() {
    let [quotient, new_item, witness] = fold(1, &[(6, [2, 3])]);
    assert_eq!(quotient, []);
    assert_eq!((&new_item[ITEM.e()], &new_item[ITEM.x()]), (&bytes(&[0])[..], &bytes(&[1, 6])[..]));
    assert_eq!(new_item[ITEM.root()], root([2, 3]));
    assert_eq!(new_item, cast(6, [2, 3]).1);
    assert_eq!(witness, bytes(&[2, 3]));
}

/// What is drawn for the items and the quotient of C5, for its fold at this challenge, and for its first item with m = 3:
/// worked out with Python's hashlib.
#[test]
fn c5_drawn() {
    let items = [item(0, 6, [2, 3]), item(0, 20, [4, 5])].concat();
    let (mut seed, mut challenge, mut positions, mut r) = ([0; 32], [0; 4], [0; 32], [0; 12]);
    assert_eq!(calls::draw_challenge(0, 2, 2, 2, &items, &bytes(&[4]), &mut seed, &mut challenge), 0);
    let hex: String = seed.iter().map(|byte| format!("{byte:02x}")).collect();
    assert_eq!(hex, "baedf83ab276db00f443b051c3763310d590efe9229e72b986331db61635eb11");
    assert_eq!(challenge, bytes(&[282522532])[..]);

    let [_, new_item, w] = fold(282522532, &[(6, [2, 3]), (20, [4, 5])]);
    assert_eq!(w, bytes(&[565045066, 565045067]));
    let root_of_new = &new_item[ITEM.root()];
    assert_eq!(calls::draw_positions(2, 2, 8, 282522532, &seed, root_of_new, &mut positions), 0);
    assert_eq!(positions, bytes(&[7, 7, 4, 4, 6, 5, 5, 7])[..]);

    assert_eq!(calls::draw_r(3, 2, &root([2, 3]), &bytes(&[1, 6]), &mut r), 0);
    assert_eq!(r, bytes(&[390671704, 173750123, 69702526])[..]);
}
