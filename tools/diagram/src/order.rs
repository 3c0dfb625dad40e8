//! The order of the places in each layer: few crossings, then short segments. Places of one column stay beside each other, the columns in order.

use crate::layout::Place;
use std::collections::BTreeMap;

type Neighbours = BTreeMap<Place, Vec<Place>>;
type Column<'a> = &'a dyn Fn(Place) -> usize;

/// How far each place is from the middle of its layer, counted in places.
fn ranks(layers: &[Vec<Place>]) -> BTreeMap<Place, f64> {
    let rank = |layer: &Vec<Place>, i: usize| i as f64 - (layer.len() - 1) as f64 / 2.0;
    layers
        .iter()
        .flat_map(|layer| layer.iter().enumerate().map(move |(i, &place)| (place, rank(layer, i))))
        .collect()
}

/// Crossings of segments, and then the segments' length: the less, the better.
pub fn cost(layers: &[Vec<Place>], segments: &[(Place, Place)]) -> (usize, f64) {
    let ranks = ranks(layers);
    let layer_of: BTreeMap<Place, usize> =
        layers.iter().enumerate().flat_map(|(i, layer)| layer.iter().map(move |&place| (place, i))).collect();
    let ends: Vec<(usize, f64, f64)> =
        segments.iter().map(|(up, down)| (layer_of[up], ranks[up], ranks[down])).collect();
    let mut crossings = 0;
    for (i, (layer, up, down)) in ends.iter().enumerate() {
        for (other, other_up, other_down) in &ends[..i] {
            crossings += (layer == other && (up - other_up) * (down - other_down) < 0.0) as usize;
        }
    }
    (crossings, ends.iter().map(|(_, up, down)| (up - down).abs()).sum())
}

/// Sorts a layer by the mean rank of each place's neighbours; a place without any stays where it is.
fn sort(layers: &mut [Vec<Place>], i: usize, neighbours: &Neighbours, column: Column) {
    let ranks = ranks(layers);
    let mean = |place: &Place| match neighbours.get(place) {
        Some(others) => others.iter().map(|other| ranks[other]).sum::<f64>() / others.len() as f64,
        None => ranks[place],
    };
    layers[i].sort_by(|a, b| column(*a).cmp(&column(*b)).then(mean(a).total_cmp(&mean(b))));
}

/// Moves single places within their layers and columns as long as that makes the cost less.
fn settle(layers: &mut [Vec<Place>], segments: &[(Place, Place)], column: Column) {
    let mut best = cost(layers, segments);
    loop {
        let before = best;
        for i in 0..layers.len() {
            for from in 0..layers[i].len() {
                for to in 0..layers[i].len() {
                    if column(layers[i][from]) != column(layers[i][to]) {
                        continue;
                    }
                    let old = layers[i].clone();
                    let place = layers[i].remove(from);
                    layers[i].insert(to, place);
                    let now = cost(layers, segments);
                    if now < best {
                        best = now;
                    } else {
                        layers[i] = old;
                    }
                }
            }
        }
        if best == before {
            return;
        }
    }
}

pub fn neighbours(segments: &[(Place, Place)]) -> (Neighbours, Neighbours) {
    let (mut above, mut below) = (Neighbours::new(), Neighbours::new());
    for &(up, down) in segments {
        below.entry(up).or_default().push(down);
        above.entry(down).or_default().push(up);
    }
    (above, below)
}

/// Puts the places of each layer in order: sweeps up and down, each then settled; the best counts.
pub fn order(layers: &mut Vec<Vec<Place>>, segments: &[(Place, Place)], column: Column) {
    let (above, below) = neighbours(segments);
    let mut best = layers.clone();
    settle(&mut best, segments, column);
    for _ in 0..4 {
        (1..layers.len()).for_each(|i| sort(layers, i, &below, column));
        (0..layers.len()).rev().for_each(|i| sort(layers, i, &above, column));
        let mut settled = layers.clone();
        settle(&mut settled, segments, column);
        if cost(&settled, segments) < cost(&best, segments) {
            best = settled;
        }
    }
    *layers = best;
}
