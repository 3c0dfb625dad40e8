//! The picture of the crates: bands, in them a box for each crate, and arrows down to what it stands on.

use crate::{
    crates::{Crates, Kind},
    graph::Graph,
    layout::{Layout, Place, Widths},
    svg::{self, Frame, Picture, Style, HEAD, LINE},
};

const WIDTHS: Widths = Widths { block: 156.0, dummy: 8.0, gap: 12.0, between: 28.0, whole: 900.0 };
const MARGIN: f64 = 6.0;
const BETWEEN_LAYERS: f64 = 34.0;
/// Between a band's edge and its boxes, between two bands, and the strip of a band's label.
const INSIDE: f64 = 14.0;
const BETWEEN_BANDS: f64 = 14.0;
const LABEL: f64 = 24.0;
/// A box that says what a kind means.
const MEANING: Frame = Frame { left: 0.0, top: 0.0, width: 150.0, height: 24.0 };
const MOST_LINES: usize = 4;

/// The kinds: class, meaning and style.
const KINDS: [(Kind, &str, Style); 4] = [
    (
        Kind::Theory,
        "definitions and laws",
        ("theory", "fill:#fdf2cc;stroke:#b08b1e;stroke-dasharray:5 3", "fill:#3a3216;stroke:#c9a43a"),
    ),
    (Kind::Library, "proved code", ("library", "fill:#e4eefb;stroke:#4a78b5", "fill:#1b2c45;stroke:#5f8fd0")),
    (
        Kind::Exported,
        "proved code, for C",
        ("exported", "fill:#d8f0dc;stroke:#2f8a45;stroke-width:2", "fill:#173722;stroke:#4bb069"),
    ),
    (Kind::Program, "program", ("program", "fill:#f7e2ee;stroke:#a8497f", "fill:#40223a;stroke:#d07ab0")),
];

fn rectangle(out: &mut Picture, kind: Kind, b: &Frame) {
    let class = KINDS.iter().find(|entry| entry.0 == kind).unwrap().2 .0;
    out.rectangle(class, b, if kind == Kind::Program { 12 } else { 3 });
}

fn text_height(words: &[String]) -> f64 {
    19.0 + LINE * words.len() as f64
}

/// The picture's measures: the top and the height of each layer and of each row of bands.
struct Measures {
    tops: Vec<f64>,
    heights: Vec<f64>,
    rows: Vec<(f64, f64)>,
    bottom: f64,
}

impl Measures {
    fn new(layout: &Layout, words: &[Vec<String>]) -> Measures {
        let height = |place: &Place| match place {
            Place::Crate(c) => text_height(&words[*c]) + 8.0,
            Place::Dummy(..) => 0.0,
        };
        let heights: Vec<f64> =
            layout.layers.iter().map(|layer| layer.iter().map(height).fold(0.0, f64::max)).collect();
        let mut tops = vec![0.0; heights.len()];
        let mut rows = vec![(0.0, 0.0); layout.rows.last().map_or(0, |row| row + 1)];
        let mut at = MARGIN;
        for i in (0..heights.len()).rev() {
            let row = layout.rows[i];
            let first = i + 1 == heights.len() || layout.rows[i + 1] != row;
            if first {
                rows[row].0 = at;
            }
            tops[i] = at + if first { INSIDE } else { BETWEEN_LAYERS };
            at = tops[i] + heights[i];
            if i == 0 || layout.rows[i - 1] != row {
                rows[row].1 = at + INSIDE - rows[row].0;
                at += INSIDE + BETWEEN_BANDS;
            }
        }
        Measures { tops, heights, rows, bottom: at }
    }
}

/// Draws a band behind its crates, with its label at the left, or at the right where another band is left of it.
fn band(out: &mut Picture, crates: &Crates, layout: &Layout, measures: &Measures, band: usize) {
    let band = &crates.bands.0[band];
    let columns = &layout.columns[&band.row];
    let (mut left, mut right) = columns[2 * band.column];
    let labelled_right = band.column > 0;
    left -= INSIDE;
    right += INSIDE;
    if band.column == 0 {
        left -= LABEL;
    }
    if 2 * band.column + 1 == columns.len() {
        right += LABEL;
    }
    let (top, height) = measures.rows[band.row];
    let b = Frame { left: left + START, top, width: right - left, height };
    out.rectangle("band", &b, 8);
    let x = if labelled_right { b.left + b.width - 11.0 } else { b.left + 20.0 };
    out.upwards("label", x, top + height / 2.0, &band.name);
}

/// Where the layout starts in the picture.
const START: f64 = MARGIN + LABEL + INSIDE;

fn segment(out: &mut Picture, layout: &Layout, measures: &Measures, (up, down): (&Place, &Place)) {
    let layer_of = |place: &Place| layout.layers.iter().position(|layer| layer.contains(place)).unwrap();
    let (from, to) = (layer_of(up), layer_of(down));
    let start = measures.tops[from] + measures.heights[from];
    // Into a crate the line ends where the arrow's head begins; an edge goes on through its layer.
    let (end, on) = match down {
        Place::Crate(_) => (measures.tops[to] - HEAD, String::new()),
        Place::Dummy(..) => (measures.tops[to], format!("V{:.1}", measures.tops[to] + measures.heights[to])),
    };
    let half = (start + end) / 2.0;
    let (a, b) = (layout.middle[up] + START, layout.middle[down] + START);
    out.path("edge", &format!("M{a:.1} {start:.1}C{a:.1} {half:.1} {b:.1} {half:.1} {b:.1} {end:.1}{on}"));
}

fn boxed(out: &mut Picture, kind: Kind, name: &str, words: &[String], b: &Frame, headed: bool) {
    let middle = b.left + b.width / 2.0;
    if headed {
        out.path("head", &format!("M{middle:.1} {:.1}l-4.5 -{HEAD}h9z", b.top));
    }
    rectangle(out, kind, b);
    let first = b.top + (b.height - text_height(words)) / 2.0;
    out.text("name", middle, first + 14.0, name);
    for (i, line) in words.iter().enumerate() {
        out.text("", middle, first + 30.0 + LINE * i as f64, line);
    }
}

/// What the kinds mean, below the bands.
fn legend(out: &mut Picture, crates: &Crates, width: f64, top: f64) {
    let meanings: Vec<_> = KINDS.iter().filter(|entry| crates.kinds.contains(&entry.0)).collect();
    let mut left = (width - meanings.len() as f64 * (MEANING.width + WIDTHS.gap) + WIDTHS.gap) / 2.0;
    for (kind, meaning, _) in meanings {
        rectangle(out, *kind, &Frame { left, top, ..MEANING });
        out.text("", left + MEANING.width / 2.0, top + 16.0, meaning);
        left += MEANING.width + WIDTHS.gap;
    }
}

pub fn draw(crates: &Crates) -> Result<String, String> {
    let graph: Graph = crates.graph.reduced();
    let words: Vec<Vec<String>> =
        crates.words.iter().map(|words| svg::wrapped(words, WIDTHS.block - 14.0)).collect();
    if let Some(c) = words.iter().position(|lines| lines.is_empty() || lines.len() > MOST_LINES) {
        let (name, lines) = (&graph.names[c], words[c].len());
        return Err(format!("{name}: {lines} lines, where a box has 1 to {MOST_LINES}: give it other words"));
    }
    let layout = Layout::new(crates, &graph, &WIDTHS);
    let measures = Measures::new(&layout, &words);
    let width = layout.width + 2.0 * START;
    let title = "The crates, what each promises, and what it stands on";
    let styles = KINDS.map(|kind| kind.2);
    let mut out = Picture::new(width, measures.bottom + MEANING.height + MARGIN, title, &styles);
    (0..crates.bands.0.len()).for_each(|i| band(&mut out, crates, &layout, &measures, i));
    layout.segments.iter().for_each(|(up, down)| segment(&mut out, &layout, &measures, (up, down)));
    for (c, name) in graph.names.iter().enumerate() {
        let place = Place::Crate(c);
        let layer = layout.layers.iter().position(|layer| layer.contains(&place)).unwrap();
        let left = layout.middle[&place] + START - WIDTHS.block / 2.0;
        let b =
            Frame { left, top: measures.tops[layer], width: WIDTHS.block, height: measures.heights[layer] };
        boxed(
            &mut out,
            crates.kinds[c],
            name,
            &words[c],
            &b,
            graph.below.iter().any(|list| list.contains(&c)),
        );
    }
    legend(&mut out, crates, width, measures.bottom);
    Ok(out.end())
}
