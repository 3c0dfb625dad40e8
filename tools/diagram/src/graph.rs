//! The crates of crates.txt, and who stands on whom.

use std::{
    cmp::Reverse,
    collections::{BTreeMap, BTreeSet},
};

pub struct Graph {
    pub names: Vec<String>,
    /// The crates that a crate stands on.
    pub below: Vec<Vec<usize>>,
}

impl Graph {
    /// Reads lines `NAME: NAME NAME ..` and `NAME staticlib: ..`, in which '#' starts a comment. A name without a line of its own is left out.
    pub fn read(text: &str) -> Result<Graph, String> {
        let lines =
            text.lines().map(|line| line.split('#').next().unwrap().trim()).filter(|line| !line.is_empty());
        let parts: Vec<(&str, &str)> = lines
            .map(|line| line.split_once(':').ok_or(format!("no ':' in '{line}'")))
            .collect::<Result<_, _>>()?;
        let names: Vec<String> =
            parts.iter().filter_map(|(name, _)| name.split_whitespace().next()).map(str::to_string).collect();
        let place = |name: &str| names.iter().position(|known| known == name);
        let below: Vec<Vec<usize>> =
            parts.iter().map(|(_, list)| list.split_whitespace().filter_map(place).collect()).collect();
        let graph = Graph { names, below };
        match graph.depths() {
            Some(_) => Ok(graph),
            None => Err("crates stand on each other in a circle".to_string()),
        }
    }

    /// The longest path down from each crate; none where there is a cycle.
    fn depths(&self) -> Option<Vec<usize>> {
        let mut depths = vec![0; self.names.len()];
        for _ in 0..=self.names.len() {
            let next: Vec<usize> = self
                .below
                .iter()
                .map(|below| below.iter().map(|&b| depths[b] + 1).max().unwrap_or(0))
                .collect();
            if next == depths {
                return Some(depths);
            }
            depths = next;
        }
        None
    }

    /// The crates that stand on each crate.
    fn above(&self) -> Vec<Vec<usize>> {
        let mut above = vec![vec![]; self.names.len()];
        for (c, below) in self.below.iter().enumerate() {
            below.iter().for_each(|&b| above[b].push(c));
        }
        above
    }

    /// All crates that a crate stands on, also by others.
    fn reached(&self) -> Vec<BTreeSet<usize>> {
        let depths = self.depths().unwrap();
        let mut order: Vec<usize> = (0..self.names.len()).collect();
        order.sort_by_key(|&c| depths[c]);
        let mut reached = vec![BTreeSet::new(); self.names.len()];
        for c in order {
            reached[c] = self.below[c].iter().flat_map(|&b| reached[b].iter().copied().chain([b])).collect();
        }
        reached
    }

    /// The same without the arrows that a longer path stands for.
    pub fn reduced(&self) -> Graph {
        let reached = self.reached();
        let direct = |list: &Vec<usize>| {
            let by_others: BTreeSet<usize> = list.iter().flat_map(|&b| reached[b].clone()).collect();
            let kept: BTreeSet<usize> = list.iter().copied().filter(|b| !by_others.contains(b)).collect();
            kept.into_iter().collect()
        };
        Graph { names: self.names.clone(), below: self.below.iter().map(direct).collect() }
    }

    /// The layer of each crate: the lowest above all that it stands on, and above all crates of lower rows, in which fewer than `most` crates of
    /// its band are. Of crates that could stand in one layer, those that carry more come first.
    pub fn layers(&self, bands: &Placed) -> Vec<usize> {
        let depths = self.depths().unwrap();
        let upside_down = Graph { names: self.names.clone(), below: self.above() };
        let carried = upside_down.depths().unwrap();
        let mut order: Vec<usize> = (0..self.names.len()).collect();
        order.sort_by_key(|&c| (bands.row(c), depths[c], Reverse(carried[c]), c));
        let mut layers = vec![0; self.names.len()];
        let mut counts = BTreeMap::new();
        let (mut row, mut start, mut next) = (0, 0, 0);
        for c in order {
            if bands.row(c) > row {
                (row, start) = (bands.row(c), next);
            }
            let mut layer = self.below[c].iter().map(|&b| layers[b] + 1).fold(start, usize::max);
            while counts.get(&(layer, bands.band[c])) == Some(&bands.most[bands.band[c]]) {
                layer += 1;
            }
            *counts.entry((layer, bands.band[c])).or_insert(0) += 1;
            layers[c] = layer;
            next = next.max(layer + 1);
        }
        layers
    }
}

/// Where crates may stand.
pub struct Placed<'a> {
    /// Of each crate its band.
    pub band: &'a [usize],
    /// Of each band its row, and how many of its crates may stand in one layer.
    pub rows: &'a [usize],
    pub most: &'a [usize],
}

impl Placed<'_> {
    pub fn row(&self, c: usize) -> usize {
        self.rows[self.band[c]]
    }
}

#[cfg(test)]
mod tests {
    use super::*;

    fn graph(text: &str) -> Graph {
        Graph::read(text).unwrap()
    }

    #[test]
    fn reads() {
        let graph = graph("# crates\na:\nb: a io # on a\n\nc staticlib: b a\n");
        assert_eq!(
            (graph.names, graph.below),
            (vec!["a".into(), "b".into(), "c".into()], vec![vec![], vec![0], vec![1, 0]])
        );
        assert!(Graph::read("a: b\nb: a").is_err());
        assert!(Graph::read("a: a").is_err());
        assert!(Graph::read("a b").is_err());
    }

    #[test]
    fn reduces() {
        assert_eq!(
            graph("a:\nb: a\nc: a b\nd: a b c\ne: a").reduced().below,
            [vec![], vec![0], vec![1], vec![2], vec![0]]
        );
    }

    #[test]
    fn layers() {
        let graph = graph("a:\nb:\nc: a\nd: b c\ne: d\nf: a");
        let layers = |band: [usize; 6], rows: [usize; 2], most| {
            graph.layers(&Placed { band: &band, rows: &rows, most: &[most; 2] })
        };
        assert_eq!(layers([0; 6], [0, 0], 9), [0, 0, 1, 2, 3, 1]);
        assert_eq!(layers([0; 6], [0, 0], 1), [0, 1, 2, 4, 5, 3]);
        // f stands above all of the lower row; or beside them.
        assert_eq!(layers([0, 0, 0, 0, 0, 1], [0, 1], 9), [0, 0, 1, 2, 3, 4]);
        assert_eq!(layers([0, 0, 0, 0, 0, 1], [0, 0], 1), [0, 1, 2, 3, 4, 1]);
    }
}
