//! Honest lists: items that have 1 as first input, and hold and match with their witnesses, for one circuit.

use crate::{bytes, number_at, points, Random};
use lomvuze_calls::layout::{ItemLayout, OpeningLayout};
use lomvuze_reference::claims::{self, Circuit, Entry, Item};
use lomvuze_reference::field::Element;
use lomvuze_reference::{code, element_bytes, item_bytes};
use std::ops::Range;

/// An honest list, and its points, circuit and witnesses, as the calls take them.
#[derive(Clone, Debug)]
pub struct Honest {
    pub m: u32,
    pub n: u32,
    pub k: u32,
    pub l: u32,
    pub points: Vec<u8>,
    pub a: Vec<u8>,
    pub b: Vec<u8>,
    pub c: Vec<u8>,
    pub items: Vec<u8>,
    pub witnesses: Vec<u8>,
}

impl Honest {
    /// A random circuit of up to a hundred entries in each list, and l random r, x and w, each with its value
    /// as e. No points are lent.
    pub fn random(random: &mut Random, m: u32, n: u32, k: u32, l: u32) -> Honest {
        let most = 100.min((n + k) << m) as usize;
        let entries = [0; 3].map(|_| random.below(most + 1));
        Honest::with_entries(random, m, n, k, l, entries)
    }

    /// The greatest sizes that are permitted.
    pub fn greatest(random: &mut Random) -> Honest {
        Honest::with_entries(random, 6, 64, 64, 8, [1024; 3])
    }

    /// The lists of the circuit have as many entries as given.
    pub fn with_entries(random: &mut Random, m: u32, n: u32, k: u32, l: u32, entries: [usize; 3]) -> Honest {
        let [a, b, c] = entries.map(|count| random_list(random, m, 0..n + k, count));
        let circuit = Circuit { a, b, c };
        let points = code::built_in_points(k as usize);
        let (mut items, mut witnesses) = (vec![], vec![]);
        for _ in 0..l {
            let (r, x, w) =
                (random.elements(m as usize), random.inputs(n as usize), random.elements(k as usize));
            let e = claims::value(&circuit, &r, &x, &w);
            witnesses.extend(element_bytes(&w));
            items.extend(item_bytes(&Item { e, r, x, root: code::root(&points, &w) }));
        }
        let [a, b, c] = [&circuit.a, &circuit.b, &circuit.c].map(|list| list_bytes(list));
        Honest { m, n, k, l, points: vec![], a, b, c, items, witnesses }
    }

    /// The same list where these points are lent: each item has the root of its witness's codeword at them.
    pub fn lent(mut self, points: Vec<u8>) -> Honest {
        let (used, layout) = (points::used(self.k, &points), self.item_layout());
        let witnesses = self.witnesses.chunks(self.witness_length());
        for (item, witness) in self.items.chunks_mut(layout.bytes()).zip(witnesses) {
            let w: Vec<Element> =
                witness.chunks(4).map(|number| Element::new(number_at(number, 0)).unwrap()).collect();
            item[layout.root()].copy_from_slice(&code::root(&used, &w));
        }
        self.points = points;
        self
    }

    /// Sizes are random too, and whether points are lent.
    pub fn of_any_size(random: &mut Random) -> Honest {
        let m = random.below(7) as u32;
        let n = 1 + random.below(64) as u32;
        let k = 2 << random.below(6);
        let l = 1 + random.below(8) as u32;
        let points = points::any(random, k);
        Honest::random(random, m, n, k, l).lent(points)
    }

    /// Random sizes, of which most are small, and points or none.
    pub fn of_small_size(random: &mut Random) -> Honest {
        if random.below(50) == 0 {
            return Honest::of_any_size(random);
        }
        let m = random.below(4) as u32;
        let n = 1 + random.below(4) as u32;
        let k = 2 << random.below(3);
        let l = 1 + random.below(4) as u32;
        let points = points::any(random, k);
        Honest::random(random, m, n, k, l).lent(points)
    }

    pub fn item_layout(&self) -> ItemLayout {
        ItemLayout { m: self.m, n: self.n }
    }

    pub fn item_length(&self) -> usize {
        self.item_layout().bytes()
    }

    pub fn witness_length(&self) -> usize {
        4 * self.k as usize
    }

    pub fn quotient_length(&self) -> usize {
        (4 * (self.l - 1) * (self.m + 1)) as usize
    }

    pub fn opening_layout(&self) -> OpeningLayout {
        OpeningLayout { k: self.k }
    }

    pub fn opening_length(&self) -> usize {
        self.opening_layout().bytes()
    }
}

/// A list of entries at random places of certain columns.
pub(crate) fn random_list(random: &mut Random, m: u32, columns: Range<u32>, count: usize) -> Vec<Entry> {
    let mut left = columns.len() << m;
    assert!(count <= left);
    let mut list = vec![];
    for row in 0..1 << m {
        for column in columns.clone() {
            if random.below(left) < count - list.len() {
                list.push(Entry { row, column, value: random.element() });
            }
            left -= 1;
        }
    }
    list
}

pub(crate) fn list_bytes(list: &[Entry]) -> Vec<u8> {
    bytes(&list.iter().flat_map(|entry| [entry.row, entry.column, entry.value.number()]).collect::<Vec<_>>())
}
