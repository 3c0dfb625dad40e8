//! Where the crates stand: in layers, each above what it stands on, with few crossings and short edges.
//!
//! An edge that passes a layer has a place of its own there, a dummy. All edges to one crate share it, so that they run together. Where two bands stand
//! side by side, an edge of neither runs between them.

use crate::{
    align,
    crates::Crates,
    graph::{Graph, Placed},
    order,
};
use std::collections::{BTreeMap, BTreeSet};

#[derive(Clone, Copy, PartialEq, Eq, PartialOrd, Ord, Debug)]
pub enum Place {
    Crate(usize),
    /// The edges to a crate, in a layer and a column that they pass.
    Dummy(usize, usize, usize),
}

pub struct Layout {
    /// The places of each layer from left to right, the lowest layer first.
    pub layers: Vec<Vec<Place>>,
    /// The row of bands of each layer.
    pub rows: Vec<usize>,
    /// Each segment of an edge: a place, and the one in the layer below.
    pub segments: Vec<(Place, Place)>,
    /// The middle of each place, from the left edge.
    pub middle: BTreeMap<Place, f64>,
    /// Of each row the left and the right edge of its columns: the bands', and between them those of the edges that pass.
    pub columns: BTreeMap<usize, Vec<(f64, f64)>>,
    pub width: f64,
}

/// The widths that the layout keeps to.
pub struct Widths {
    pub block: f64,
    pub dummy: f64,
    pub gap: f64,
    /// Between a column and the next one.
    pub between: f64,
    /// Of the whole, unless a layer needs more.
    pub whole: f64,
}

impl Widths {
    pub fn of(&self, place: Place) -> f64 {
        match place {
            Place::Crate(_) => self.block,
            Place::Dummy(..) => self.dummy,
        }
    }

    pub fn of_layer(&self, layer: &[Place]) -> f64 {
        (layer.iter().map(|&place| self.of(place) + self.gap).sum::<f64>() - self.gap).max(0.0)
    }

    /// As many crates as fit beside each other.
    fn most(&self) -> f64 {
        ((self.whole + self.gap) / (self.block + self.gap)).floor().max(1.0)
    }
}

/// A graph without needless arrows, with the layer, the row and the column of each crate. A row of several bands has their columns at even numbers, and the
/// edges that pass between them at odd ones.
struct Columns<'a> {
    graph: &'a Graph,
    layer_of: Vec<usize>,
    row_of: Vec<usize>,
    column_of: Vec<usize>,
    rows: Vec<usize>,
    /// Whether a row has several bands.
    several: Vec<bool>,
}

impl Columns<'_> {
    /// The column in which an edge passes a layer.
    fn passed(&self, from: usize, to: usize, layer: usize) -> usize {
        match self.rows[layer] {
            row if !self.several[row] => 0,
            row if row == self.row_of[from] => self.column_of[from],
            row if row == self.row_of[to] => self.column_of[to],
            _ => 1,
        }
    }

    /// The places of each layer, column by column, and the segments of the edges.
    fn places(&self) -> (Vec<Vec<Place>>, Vec<(Place, Place)>) {
        let mut segments = BTreeSet::new();
        let mut layers = vec![BTreeSet::new(); self.rows.len()];
        for (c, below) in self.graph.below.iter().enumerate() {
            layers[self.layer_of[c]].insert((self.column_of[c], Place::Crate(c)));
            for &target in below {
                let mut up = Place::Crate(c);
                for layer in (self.layer_of[target] + 1..self.layer_of[c]).rev() {
                    let column = self.passed(c, target, layer);
                    let down = Place::Dummy(target, layer, column);
                    layers[layer].insert((column, down));
                    segments.insert((up, down));
                    up = down;
                }
                segments.insert((up, Place::Crate(target)));
            }
        }
        let layers = layers.into_iter().map(|layer| layer.into_iter().map(|(_, place)| place).collect());
        (layers.collect(), segments.into_iter().collect())
    }

    fn column(&self, place: Place) -> usize {
        match place {
            Place::Crate(c) => self.column_of[c],
            Place::Dummy(_, _, column) => column,
        }
    }
}

impl Layout {
    /// Lays out crates, of which the graph has no needless arrows.
    pub fn new(crates: &Crates, graph: &Graph, widths: &Widths) -> Layout {
        let bands = &crates.bands;
        let rows: Vec<usize> = bands.0.iter().map(|band| band.row).collect();
        let most: Vec<usize> = (0..rows.len())
            .map(|band| (widths.most() * bands.share(band)).round().max(1.0) as usize)
            .collect();
        let layer_of = graph.layers(&Placed { band: &crates.band, rows: &rows, most: &most });
        let row_of: Vec<usize> = crates.band.iter().map(|&band| rows[band]).collect();
        let column_of = crates.band.iter().map(|&band| 2 * bands.0[band].column).collect();
        let mut row_of_layer = vec![0; layer_of.iter().max().map_or(0, |top| top + 1)];
        layer_of.iter().zip(&row_of).for_each(|(&layer, &row)| row_of_layer[layer] = row);
        let several =
            (0..=rows.iter().copied().max().unwrap_or(0)).map(|row| bands.columns(row) > 1).collect();
        let columns = Columns { graph, layer_of, row_of, column_of, rows: row_of_layer, several };

        let (mut layers, segments) = columns.places();
        let column = |place| columns.column(place);
        order::order(&mut layers, &segments, &column);
        let edges = align::edges(&layers, &columns.rows, widths, &column);
        let middle = align::middles(&layers, &columns.rows, &segments, widths, &edges, &column);
        let width = edges.values().flatten().map(|edge| edge.1).fold(0.0, f64::max);
        Layout { layers, rows: columns.rows, segments, middle, columns: edges, width }
    }
}

#[cfg(test)]
mod tests;
