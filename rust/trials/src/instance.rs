//! Instances: a circuit with r, x and w, of which an item is cast.

use crate::honest::{list_bytes, random_list};
use crate::{Honest, Random};
use lomvuze_reference::claims::{self, Circuit, Entry};
use lomvuze_reference::element_bytes;
use lomvuze_reference::field::{Element, ONE, ZERO};

/// A circuit with r, x and w whose rows all hold, with the sizes of an honest list and as many entries. In C,
/// each row has in column 0, whose input is 1, the one value that makes it hold.
pub(crate) fn instance(random: &mut Random, list: &Honest) -> Vec<Vec<u8>> {
    let (m, columns) = (list.m, list.n + list.k);
    let (r, x, w) =
        (random.elements(m as usize), random.inputs(list.n as usize), random.elements(list.k as usize));
    let others = (list.c.len() / 12).saturating_sub(1 << m);
    let mut circuit = Circuit {
        a: random_list(random, m, 0..columns, list.a.len() / 12),
        b: random_list(random, m, 0..columns, list.b.len() / 12),
        c: random_list(random, m, 1..columns, others),
    };
    let mut first = vec![];
    for row in 0..1u32 << m {
        // The value of the circuit at the corner of the cube that row stands for is the row's own residue.
        let corner: Vec<Element> = (0..m).map(|b| if row >> b & 1 == 1 { ONE } else { ZERO }).collect();
        first.push(Entry { row, column: 0, value: claims::value(&circuit, &corner, &x, &w) });
    }
    circuit.c.extend(first);
    circuit.c.sort_by_key(|entry| (entry.row, entry.column));
    vec![
        list_bytes(&circuit.a),
        list_bytes(&circuit.b),
        list_bytes(&circuit.c),
        element_bytes(&r),
        element_bytes(&x),
        element_bytes(&w),
    ]
}
