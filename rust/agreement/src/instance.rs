//! Small random circuits, items and witnesses.

use lomvuze_reference::claims::{self, Circuit, Entry, Item};
use lomvuze_reference::code;
use lomvuze_reference::field::Element;
use lomvuze_trials::{bytes, Random};

/// Items with witnesses for one circuit; every item has 1 as first input, holds, and matches at the built-in points.
pub struct Instance {
    pub circuit: Circuit,
    pub items: Vec<Item>,
    pub witnesses: Vec<Vec<Element>>,
}

fn entries(random: &mut Random, m: usize, columns: usize) -> Vec<Entry> {
    let mut list = vec![];
    for row in 0..1 << m {
        for column in 0..columns {
            if random.below(3 * (1 << m)) < 3 {
                list.push(Entry { row, column: column as u32, value: random.element() });
            }
        }
    }
    list
}

pub fn circuit(random: &mut Random, m: usize, columns: usize) -> Circuit {
    Circuit { a: entries(random, m, columns), b: entries(random, m, columns), c: entries(random, m, columns) }
}

impl Instance {
    pub fn random(random: &mut Random, m: usize, n: usize, k: usize, l: usize) -> Instance {
        let circuit = circuit(random, m, n + k);
        let points = code::built_in_points(k);
        let (mut items, mut witnesses) = (vec![], vec![]);
        for _ in 0..l {
            let (r, x, w) = (random.elements(m), random.inputs(n), random.elements(k));
            let e = claims::value(&circuit, &r, &x, &w);
            items.push(Item { e, r, x, root: code::root(&points, &w) });
            witnesses.push(w);
        }
        Instance { circuit, items, witnesses }
    }
}

pub fn entry_bytes(list: &[Entry]) -> Vec<u8> {
    bytes(&list.iter().flat_map(|entry| [entry.row, entry.column, entry.value.number()]).collect::<Vec<_>>())
}
