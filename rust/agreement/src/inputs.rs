//! The calls whose answers are worked out: honest ones, and such at the edges of the checks.

use crate::calls::Call;
use crate::codes;
use crate::instance::{self, entry_bytes, Instance};
use lomvuze_calls::layout::ItemLayout;
use lomvuze_reference::claims::{self, Item};
use lomvuze_reference::code;
use lomvuze_reference::field::P;
use lomvuze_reference::{element_bytes, item_bytes};
use lomvuze_trials::{bytes, number_at, points, put, Chain, Honest, Random, REFERENCE};

/// An honest list of small sizes, with points or none, and its instance.
fn honest_list(random: &mut Random) -> (Honest, Instance) {
    let (m, n, k, l) = (random.below(2), 1 + random.below(2), 2, 1 + random.below(2));
    let instance = Instance::random(random, m, n, k, l);
    let list = Honest {
        m: m as u32,
        n: n as u32,
        k: k as u32,
        l: l as u32,
        points: vec![],
        a: entry_bytes(&instance.circuit.a),
        b: entry_bytes(&instance.circuit.b),
        c: entry_bytes(&instance.circuit.c),
        items: instance.items.iter().flat_map(item_bytes).collect(),
        witnesses: instance.witnesses.iter().flat_map(|w| element_bytes(w)).collect(),
    };
    let points = points::any(random, list.k);
    (list.lent(points), instance)
}

/// The eight calls that draw nothing, for an honest list of small sizes.
pub fn honest_calls(random: &mut Random) -> Vec<Call> {
    let (list, instance) = honest_list(random);
    let challenge = list.l + random.below(5) as u32;
    let positions = [random.below(4 * list.k as usize) as u32];
    let t = positions.len() as u32;
    let chain = Chain::new(&REFERENCE, &list, challenge, &positions);

    let (m, n, k, l) = (list.m, list.n, list.k, list.l);
    let interleaving = interleaving(random, &list);
    let points = list.points.clone();
    let matrices = [points.clone(), list.a.clone(), list.b.clone(), list.c.clone()];
    let (item, w) = (&instance.items[0], list.witnesses[..list.witness_length()].to_vec());
    let (r, x) = (element_bytes(&item.r), element_bytes(&item.x));
    let lists = [&matrices[..], &[list.items.clone(), list.witnesses.clone()]].concat();
    let shown =
        vec![list.items.clone(), chain.positions, chain.quotient, chain.new_item.clone(), chain.openings];
    // Reads the first buffers, and writes others of these lengths.
    let mut call = |name, numbers: &[u32], mut buffers: Vec<Vec<u8>>, lengths: &[usize], outputs| {
        buffers.extend(lengths.iter().map(|length| random.bytes(*length)));
        Call { name, numbers: numbers.to_vec(), buffers, outputs }
    };
    let (new, item, wit) = (list.quotient_length(), list.item_length(), list.witness_length());
    vec![
        call("encode", &[k], vec![points.clone(), w.clone()], &[16 * k as usize, 32], &["code", "root"]),
        call("cast", &[m, n, k], [&matrices[..], &[r, x, w.clone()]].concat(), &[item], &["item"]),
        call("quotient", &[m, n, k, l], lists.clone(), &[new], &["quotient"]),
        call("fold", &[m, n, k, l, challenge], lists, &[new, item, wit], &["quotient", "item", "wit"]),
        call(
            "«open»",
            &[k, t],
            vec![points, w, bytes(&positions)],
            &[t as usize * list.opening_length()],
            &["openings"],
        ),
        interleaving,
        call("verify", &[m, n, k, l, t, challenge], shown, &[], &[]),
        call("decide", &[m, n, k], [&matrices[..], &[chain.new_item, chain.new_witness]].concat(), &[], &[]),
    ]
}

/// Openings of any bytes, at one or two positions.
fn interleaving(random: &mut Random, list: &Honest) -> Call {
    let t = 1 + random.below(2);
    let length = t * (list.l as usize + 1) * list.opening_length();
    Call {
        name: "interleave",
        numbers: vec![list.k, list.l, t as u32],
        buffers: vec![random.bytes(length), random.bytes(length)],
        outputs: &["openings"],
    }
}

/// Encoding and deciding for the one witness, without points and with lent ones: items of its own root that hold, that
/// do not, and of other roots.
pub fn worked_out(random: &mut Random) -> Vec<Call> {
    let mut all = worked_out_at(random, &[], 12);
    all.extend(worked_out_at(random, &codes::lent(), 6));
    all
}

fn worked_out_at(random: &mut Random, lent: &[u8], count: usize) -> Vec<Call> {
    let w = codes::witness();
    let k = w.len() as u32;
    let (wit, root) = (element_bytes(&w), code::root(&codes::used(w.len(), lent), &w));
    let mut all = vec![Call {
        name: "encode",
        numbers: vec![k],
        buffers: vec![lent.to_vec(), wit.clone(), random.bytes(16 * k as usize), random.bytes(32)],
        outputs: &["code", "root"],
    }];
    for i in 0..count {
        let (m, n) = (random.below(3), 1 + random.below(2));
        let matrices = instance::circuit(random, m, n + w.len());
        let (r, x) = (random.elements(m), random.inputs(n));
        let mut item = Item { e: claims::value(&matrices, &r, &x, &w), r, x, root };
        if i % 3 == 1 {
            item.e = random.element();
        }
        if i % 3 == 2 {
            item.root[random.below(32)] ^= 1;
        }
        all.push(Call {
            name: "decide",
            numbers: vec![m as u32, n as u32, k],
            buffers: vec![
                lent.to_vec(),
                entry_bytes(&matrices.a),
                entry_bytes(&matrices.b),
                entry_bytes(&matrices.c),
                item_bytes(&item),
                wit.clone(),
            ],
            outputs: &[],
        });
    }
    all
}

/// Calls with one number at an edge: on either side of what a check permits.
pub fn edges(random: &mut Random) -> Vec<Call> {
    let mut all = vec![];
    for call in honest_calls(random) {
        if let "fold" | "verify" = call.name {
            let l = call.numbers[3];
            for challenge in [l - 1, l, P - 1, P] {
                let mut edge = call.clone();
                *edge.numbers.last_mut().unwrap() = challenge;
                all.push(edge);
            }
        }
        all.extend([edges_of_points(&call), edges_of_first_inputs(&call)].concat());
        for i in 0..call.buffers.len() - call.outputs.len() {
            for (at, number) in edges_of_buffer(&call, i) {
                let mut edge = call.clone();
                if at + 4 <= edge.buffers[i].len() {
                    put(&mut edge.buffers[i], at, number);
                    all.push(edge);
                }
            }
        }
    }
    all
}

/// Numbers at an edge for buffer i, and their places: of the last entry of a list, of the first position, or of the first
/// element.
fn edges_of_buffer(call: &Call, i: usize) -> Vec<(usize, u32)> {
    let n = &call.numbers;
    let (k, rows) = match call.name {
        "encode" | "«open»" | "interleave" => (n[0], 1),
        _ => (n[2], 1 << n[0]),
    };
    let circuit = matches!(call.name, "cast" | "quotient" | "fold" | "decide");
    let last = call.buffers[i].len().saturating_sub(12);
    match (circuit && (1..4).contains(&i), call.name, i) {
        (true, _, _) => vec![
            (last, rows - 1),
            (last, rows),
            (last + 4, n[1] + k - 1),
            (last + 4, n[1] + k),
            (last + 8, P - 1),
            (last + 8, P),
        ],
        (_, "«open»", 2) | (_, "verify", 1) => vec![(0, 4 * k - 1), (0, 4 * k)],
        _ => vec![(0, P - 1), (0, P)],
    }
}

/// First inputs other than 1: of the lent x, or of each item by itself, the new one too.
fn edges_of_first_inputs(call: &Call) -> Vec<Call> {
    let item = |m: u32, n: u32| {
        let layout = ItemLayout { m, n };
        (layout.first_input().start, layout.bytes())
    };
    // Which buffers have first inputs, where the first one stands, and how far the next one is.
    let (buffers, (first, length)) = match (call.name, &call.numbers[..]) {
        ("cast", _) => (&[5][..], (0, usize::MAX)),
        ("quotient" | "fold" | "decide", [m, n, ..]) => (&[4][..], item(*m, *n)),
        ("verify", [m, n, ..]) => (&[0, 3][..], item(*m, *n)),
        _ => return vec![],
    };
    let mut all = vec![];
    for i in buffers {
        for at in (first..call.buffers[*i].len()).step_by(length) {
            for number in [0, 2, P - 1] {
                let mut edge = call.clone();
                put(&mut edge.buffers[*i], at, number);
                all.push(edge);
            }
        }
    }
    all
}

/// Points where the last one is p - 1 or p, or one repeats another; and points one number short.
fn edges_of_points(call: &Call) -> Vec<Call> {
    if !call.takes_points() || call.buffers[0].is_empty() {
        return vec![];
    }
    let (first, last) = (number_at(&call.buffers[0], 0), call.buffers[0].len() - 4);
    let mut all: Vec<Call> = [(last, P - 1), (last, P), (last, first), (4, first)]
        .into_iter()
        .map(|(at, number)| {
            let mut edge = call.clone();
            put(&mut edge.buffers[0], at, number);
            edge
        })
        .collect();
    let mut short = call.clone();
    short.buffers[0].truncate(last);
    all.push(short);
    all
}
