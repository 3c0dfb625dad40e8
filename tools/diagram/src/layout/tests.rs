use super::*;
use crate::{bands::Bands, crates::Kind};

const WIDTHS: Widths = Widths { block: 100.0, dummy: 10.0, gap: 10.0, between: 30.0, whole: 500.0 };

/// Lays out crates by their bands; without bands all are in one.
fn layout(text: &str, bands: Option<&str>) -> Layout {
    let graph = Graph::read(text).unwrap().reduced();
    let one: String = graph.names.iter().map(|name| format!("{name}: words\n")).collect();
    let bands = Bands::read(bands.unwrap_or(&format!("[all]\n{one}"))).unwrap();
    let band = bands.of(&graph.names).unwrap().iter().map(|found| found.0).collect();
    let kinds = vec![Kind::Library; graph.names.len()];
    let crates = Crates { graph: Graph::read(text).unwrap(), bands, band, kinds, words: vec![] };
    Layout::new(&crates, &graph, &WIDTHS)
}

/// Places of a layer stand apart and inside; every segment goes one layer down.
fn sound(layout: &Layout) {
    let edge = |place: Place, side: f64| layout.middle[&place] + side * WIDTHS.of(place) / 2.0;
    for layer in &layout.layers {
        assert!(edge(layer[0], -1.0) > -1e-6 && edge(layer[layer.len() - 1], 1.0) < layout.width + 1e-6);
        assert!(layer.windows(2).all(|pair| edge(pair[1], -1.0) - edge(pair[0], 1.0) > WIDTHS.gap - 1e-6));
    }
    let layer_of = |place| layout.layers.iter().position(|layer| layer.contains(place)).unwrap();
    assert!(layout.segments.iter().all(|(up, down)| layer_of(up) == layer_of(down) + 1));
}

#[test]
fn no_crossing_is_left() {
    let layout = layout("a:\nb:\nc:\nd: c\ne: b\nf: a\ng: c\nh: d e f g", None);
    sound(&layout);
    assert_eq!(order::cost(&layout.layers, &layout.segments).0, 0);
}

#[test]
fn edges_share_their_places() {
    let layout = layout("a:\nb:\nc: b\nd: c\ne: a d\nf: a d", None);
    sound(&layout);
    assert_eq!(layout.layers.iter().map(Vec::len).collect::<Vec<_>>(), [2, 2, 2, 2]);
    assert_eq!(layout.segments.len(), 8);
}

#[test]
fn many_crates_take_several_layers() {
    let text: String =
        (0..20).map(|i| format!("c{i}: {}\n", if i < 12 { "" } else { "c0 c5 c11" })).collect();
    let layout = layout(&text, None);
    sound(&layout);
    let crates = |layer: &Vec<Place>| layer.iter().filter(|p| matches!(p, Place::Crate(_))).count();
    assert_eq!(layout.layers.iter().map(crates).max(), Some(WIDTHS.most() as usize));
}

#[test]
fn bands_stand_apart() {
    let bands = "[low]\na: .\n[left]\nb: .\nc: .\n[right, beside left]\nd: .\ne: .\n[high]\nf: .\n";
    let layout = layout("a:\nb: a\nc: b e\nd: a\ne: d\nf: a c", Some(bands));
    sound(&layout);
    assert_eq!(layout.rows, [0, 1, 1, 1, 2]);
    let columns = &layout.columns[&1];
    assert_eq!(columns.len(), 3);
    let inside = |c: usize, column: usize| {
        let (left, right) = columns[column];
        let x = layout.middle[&Place::Crate(c)];
        left + 50.0 - 1e-6 <= x && x <= right - 50.0 + 1e-6
    };
    assert!(inside(1, 0) && inside(2, 0) && inside(3, 2) && inside(4, 2));
    assert!(columns[0].1 + WIDTHS.between <= columns[2].0);
}
