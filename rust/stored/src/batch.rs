//! The data of the examples: statements that a ledger's move balances. Eight of them, and their fold into one, for
//! those in C, with r, challenge and positions drawn; a sheet of twenty for that in Rust.
//!
//! Public inputs: 1, the total of two holdings, the payment, the price of a unit. Witness: both holdings
//! before the move, both after it, the units moved, and three random numbers that the circuit does not use.
//! Rows: the holdings before have the total; so have those after; the first holding goes down by the units;
//! units × price = payment.

use lomvuze_calls::layout::ItemLayout;
use lomvuze_reference::field::P;
use lomvuze_reference::sheet::{self, Pair, Sheet};
use lomvuze_trials::{bytes, number_at, Chain, Honest, Random, REFERENCE};
use std::collections::BTreeSet;

const M: u32 = 2;
const N: u32 = 4;
const K: u32 = 8;
const L: u32 = 8;
/// Of 16 positions drawn of 4k = 32, some 13 are different; k at least have to be.
const T: u32 = 16;

const ITEM: ItemLayout = ItemLayout { m: M, n: N };

const ONE: u32 = 0;
const TOTAL: u32 = 1;
const PAYMENT: u32 = 2;
const PRICE: u32 = 3;
const BEFORE: [u32; 2] = [N, N + 1];
const AFTER: [u32; 2] = [N + 2, N + 3];
const UNITS: u32 = N + 4;

/// The eight statements. Each holds at every r, so that the one drawn from root and x is put in.
fn eight() -> Honest {
    let mut list = statements(&mut Random::new(1), L);
    for item in list.items.chunks_mut(ITEM.bytes()) {
        let mut r = vec![0; ITEM.r().len()];
        assert_eq!(REFERENCE.draw_r(M, N, &item[ITEM.root()], &item[ITEM.x()], &mut r), 0);
        item[ITEM.r()].copy_from_slice(&r);
    }
    list
}

/// What both files start with: letters, sizes, circuit and items.
fn front(letters: &[u8; 8], list: &Honest) -> Vec<u8> {
    let Honest { a, b, c, items, .. } = list;
    let entries = [a, b, c].map(|entries| entries.len() as u32 / 12);
    [&letters[..], &bytes(&[M, N, K, L, T]), &bytes(&entries), a, b, c, items].concat()
}

/// `statements.bin`, before the fold, as `examples/c/README.md` describes it.
pub fn unfolded() -> Vec<u8> {
    let list = eight();
    [&front(b"lomvuze2", &list)[..], &list.witnesses].concat()
}

/// `batch.bin`, the same statements folded with challenge and positions drawn, as `examples/c/README.md` describes
/// it.
pub fn folded() -> Vec<u8> {
    let list = eight();
    let (_, chain) = Chain::drawn(&REFERENCE, &list, T);
    chain.assert_accepted(&REFERENCE, &list);
    let different: BTreeSet<&[u8]> = chain.positions.chunks(4).collect();
    assert!(different.len() >= K as usize);
    [&front(b"lomvuze3", &list)[..], &chain.quotient, &chain.new_item, &chain.openings, &chain.new_witness]
        .concat()
}

/// `twenty.sheet`.
pub fn twenty() -> Vec<u8> {
    let list = statements(&mut Random::new(2), 20);
    let numbers = |bytes: &[u8]| bytes.chunks(4).map(|number| number_at(number, 0)).collect::<Vec<u32>>();
    let entries = |list: &[u8]| list.chunks(12).map(|entry| numbers(entry).try_into().unwrap()).collect();
    let pair = |(item, witness): (&[u8], &[u8])| {
        let e_r_x = [ITEM.e(), ITEM.r(), ITEM.x()].map(|place| numbers(&item[place])).concat();
        let root = item[ITEM.root()].try_into().expect("a digest");
        Pair { numbers: e_r_x, root, witness: numbers(witness) }
    };
    let (items, witnesses) = (list.items.chunks(ITEM.bytes()), list.witnesses.chunks(list.witness_length()));
    sheet::write(&Sheet {
        size: [M, N, K],
        a: entries(&list.a),
        b: entries(&list.b),
        c: entries(&list.c),
        pairs: items.zip(witnesses).map(pair).collect(),
        end: list.l,
    })
}

fn statements(random: &mut Random, count: u32) -> Honest {
    let a = [
        [0, BEFORE[0], 1],
        [0, BEFORE[1], 1],
        [1, AFTER[0], 1],
        [1, AFTER[1], 1],
        [2, BEFORE[0], 1],
        [2, UNITS, P - 1],
        [3, UNITS, 1],
    ];
    let b = [[0, ONE, 1], [1, ONE, 1], [2, ONE, 1], [3, PRICE, 1]];
    let c = [[0, TOTAL, 1], [1, TOTAL, 1], [2, AFTER[0], 1], [3, PAYMENT, 1]];
    let (a, b, c) = (bytes(&a.concat()), bytes(&b.concat()), bytes(&c.concat()));
    let (mut items, mut witnesses) = (vec![], vec![]);
    for _ in 0..count {
        let mut number = |least: u32, below: u32| least + random.below((below - least) as usize) as u32;
        let before = [number(1000, 100_000), number(1000, 100_000)];
        let (units, price) = (number(1, 1000), number(1, 10_000));
        let x = bytes(&[1, before[0] + before[1], units * price, price]);
        let free = [number(0, P), number(0, P), number(0, P)];
        let w = [&before[..], &[before[0] - units, before[1] + units, units], &free].concat();
        let r = bytes(&[number(0, P), number(0, P)]);
        let mut item = vec![0; ITEM.bytes()];
        assert_eq!(REFERENCE.cast(M, N, K, &[], &a, &b, &c, &r, &x, &bytes(&w), &mut item), 0);
        items.extend(item);
        witnesses.extend(bytes(&w));
    }
    Honest { m: M, n: N, k: K, l: count, points: vec![], a, b, c, items, witnesses }
}
