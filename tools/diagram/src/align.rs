//! How far from the left each place stands: near its neighbours above and below, as order, widths and columns permit.

use crate::{
    layout::{Place, Widths},
    order::neighbours,
};
use std::collections::BTreeMap;

type Column<'a> = &'a dyn Fn(Place) -> usize;
type Pulls = BTreeMap<Place, Vec<(Place, f64)>>;
/// Of each row the left and the right edge of each column.
pub type Edges = BTreeMap<usize, Vec<(f64, f64)>>;

/// The least squares fit of `wanted` by numbers that do not descend: neighbours that would are pooled at their mean.
fn ascending(wanted: &[(f64, f64)]) -> Vec<f64> {
    let mut pools: Vec<(f64, f64, usize)> = vec![];
    for &(value, weight) in wanted {
        pools.push((value, weight, 1));
        while pools.len() > 1 && pools[pools.len() - 2].0 > pools[pools.len() - 1].0 {
            let (b, a) = (pools.pop().unwrap(), pools.pop().unwrap());
            pools.push(((a.0 * a.1 + b.0 * b.1) / (a.1 + b.1), a.1 + b.1, a.2 + b.2));
        }
    }
    pools.iter().flat_map(|&(value, _, count)| vec![value; count]).collect()
}

/// Each place's neighbours above and below, and how straight the segment to each is to be: more within an edge, and where two crates have no
/// other segment on that side.
fn pulls(segments: &[(Place, Place)]) -> Pulls {
    let (above, below) = neighbours(segments);
    let mut pulls = Pulls::new();
    for &(up, down) in segments {
        let straight = match (up, down) {
            (Place::Dummy(..), Place::Dummy(..)) => true,
            (Place::Crate(_), Place::Crate(_)) => below[&up].len() == 1 && above[&down].len() == 1,
            _ => false,
        };
        let weight = if straight { 64.0 } else { 1.0 };
        pulls.entry(up).or_default().push((down, weight));
        pulls.entry(down).or_default().push((up, weight));
    }
    pulls
}

/// The places of a layer by columns.
fn parts(layer: &[Place], column: Column) -> BTreeMap<usize, Vec<Place>> {
    let mut parts: BTreeMap<usize, Vec<Place>> = BTreeMap::new();
    layer.iter().for_each(|&place| parts.entry(column(place)).or_default().push(place));
    parts
}

/// The edges of each row's columns: side by side, as wide as their widest layers, and together as wide as the widest row.
pub fn edges(layers: &[Vec<Place>], rows: &[usize], widths: &Widths, column: Column) -> Edges {
    let mut room: BTreeMap<usize, Vec<f64>> = BTreeMap::new();
    for (layer, &row) in layers.iter().zip(rows) {
        let columns = room.entry(row).or_default();
        for (column, places) in parts(layer, column) {
            columns.resize(columns.len().max(column + 1), 0.0);
            columns[column] = columns[column].max(widths.of_layer(&places));
        }
    }
    let total =
        |columns: &Vec<f64>| columns.iter().map(|width| width + widths.between).sum::<f64>() - widths.between;
    let whole = room.values().map(total).fold(0.0, f64::max);
    let spread = |columns: &Vec<f64>| {
        let more = (whole - total(columns)) / columns.len().div_ceil(2) as f64;
        let mut left = 0.0;
        let edge = |(column, width): (usize, &f64)| {
            let edge = (left, left + width + if column % 2 == 0 { more } else { 0.0 });
            left = edge.1 + widths.between;
            edge
        };
        columns.iter().enumerate().map(edge).collect()
    };
    room.iter().map(|(&row, columns)| (row, spread(columns))).collect()
}

/// Moves some places that stand beside each other to the mean of their neighbours, as near as order, widths and edges permit.
fn align(
    layer: &[Place],
    pulls: &Pulls,
    widths: &Widths,
    (left, right): (f64, f64),
    middle: &mut BTreeMap<Place, f64>,
) {
    let mut offsets = vec![];
    let mut at = 0.0;
    for &place in layer {
        offsets.push(at + widths.of(place) / 2.0);
        at += widths.of(place) + widths.gap;
    }
    let wanted = |(place, offset): (&Place, &f64)| match pulls.get(place) {
        Some(pulls) => {
            let total: f64 = pulls.iter().map(|(_, weight)| weight).sum();
            let sum: f64 = pulls.iter().map(|(other, weight)| middle[other] * weight).sum();
            (sum / total - offset, total)
        }
        None => (middle[place] - offset, 0.01),
    };
    let wanted: Vec<(f64, f64)> = layer.iter().zip(&offsets).map(wanted).collect();
    let last = (right - widths.of_layer(layer)).max(left);
    for ((&place, offset), x) in layer.iter().zip(&offsets).zip(ascending(&wanted)) {
        middle.insert(place, offset + x.clamp(left, last));
    }
}

/// The middle of each place.
pub fn middles(
    layers: &[Vec<Place>],
    rows: &[usize],
    segments: &[(Place, Place)],
    widths: &Widths,
    edges: &Edges,
    column: Column,
) -> BTreeMap<Place, f64> {
    let pulls = pulls(segments);
    let parts: Vec<(Vec<Place>, (f64, f64))> = layers
        .iter()
        .zip(rows)
        .flat_map(|(layer, row)| {
            parts(layer, column).into_iter().map(|(column, part)| (part, edges[row][column]))
        })
        .collect();
    let center = |(part, edge): &(Vec<Place>, (f64, f64))| {
        part.iter().map(|&place| (place, (edge.0 + edge.1) / 2.0)).collect::<Vec<_>>()
    };
    let mut middle: BTreeMap<Place, f64> = parts.iter().flat_map(center).collect();
    for _ in 0..2000 {
        parts.iter().for_each(|(part, edge)| align(part, &pulls, widths, *edge, &mut middle));
        parts.iter().rev().for_each(|(part, edge)| align(part, &pulls, widths, *edge, &mut middle));
    }
    middle
}

#[cfg(test)]
mod tests {
    use super::*;

    #[test]
    fn pools() {
        assert_eq!(ascending(&[(1.0, 1.0), (3.0, 1.0), (2.0, 1.0), (5.0, 1.0)]), [1.0, 2.5, 2.5, 5.0]);
        assert_eq!(ascending(&[(4.0, 3.0), (0.0, 1.0)]), [3.0, 3.0]);
    }
}
