//! The picture of the chain: a lane for each actor, and in them from top to bottom what they do. Numbers stand across the first two lanes, which are those
//! of who could pick them and who must not.

use crate::{
    chain::{Actor, Chain, Step},
    svg::{wrapped, Frame, Picture, Style, HEAD, LINE},
};

const WIDTH: f64 = 1000.0;
/// The left edge and the width of each lane.
const LANES: [(f64, f64); 3] = [(4.0, 330.0), (430.0, 310.0), (816.0, 180.0)];
const MARGIN: f64 = 4.0;
const INSIDE: f64 = 10.0;
const BETWEEN: f64 = 12.0;
const NAME: f64 = 19.0;

const STYLES: [Style; 5] = [
    ("call", "fill:#e4eefb;stroke:#4a78b5", "fill:#1b2c45;stroke:#5f8fd0"),
    ("number", "fill:#fdf2cc;stroke:#b08b1e;stroke-dasharray:5 3", "fill:#3a3216;stroke:#c9a43a"),
    ("held", "fill:#e9ecef;stroke:#8a929b", "fill:#2a3038;stroke:#79828d"),
    ("end", "fill:#d8f0dc;stroke:#2f8a45;stroke-width:2", "fill:#173722;stroke:#4bb069"),
    ("quiet", "font-style:italic;fill:#4b535c", "fill:#b3bcc6"),
];

fn middle(lane: usize) -> f64 {
    LANES[lane].0 + LANES[lane].1 / 2.0
}

/// The room for texts in a box of a lane.
fn room(lane: usize) -> f64 {
    LANES[lane].1 - 4.0 * INSIDE
}

/// A name and lines below it, in a box or in the head of a lane. `quiet` are the lines that say when or why.
struct Text {
    name: String,
    lines: Vec<String>,
    quiet: Vec<String>,
}

impl Text {
    fn height(&self) -> f64 {
        let lines = (self.lines.len() + self.quiet.len()) as f64;
        (if self.name.is_empty() { 0.0 } else { NAME }) + LINE * lines + INSIDE
    }

    fn draw(&self, out: &mut Picture, x: f64, top: f64) {
        let mut y = top + 1.0;
        if !self.name.is_empty() {
            y += NAME;
            out.text("name", x, y, &self.name);
        }
        for (class, lines) in [("", &self.lines), ("quiet", &self.quiet)] {
            for line in lines {
                y += LINE;
                out.text(class, x, y, line);
            }
        }
    }
}

/// What a step shows, from which its height follows.
struct Row<'a> {
    step: &'a Step,
    text: Text,
    height: f64,
}

impl Row<'_> {
    fn new(step: &Step) -> Row<'_> {
        let text = |name: &str, lines: Vec<String>, quiet: Vec<String>| Text {
            name: name.to_string(),
            lines,
            quiet,
        };
        let across = LANES[1].0 + LANES[1].1 - LANES[0].0 - 4.0 * INSIDE;
        let text = match step {
            Step::Agreed { words, .. } => text("", vec![], wrapped(words, room(1))),
            Step::Call { actor, name, signature, words } => {
                text(name, wrapped(signature, room(*actor)), wrapped(words, room(*actor)))
            }
            Step::Number { name, actors, call, signature, words } => {
                let by = if actors.len() > 1 { ", by both," } else { "" };
                let drawn = wrapped(&format!("drawn by hash{by} with {call}: {signature}"), across);
                text(name, drawn, wrapped(&format!("or {words}"), across))
            }
            Step::Send { things, words, .. } => {
                text("", wrapped(things, LANES[1].0 - LANES[0].1), wrapped(words, LANES[1].0 - LANES[0].1))
            }
            Step::End { words } => text("", wrapped(words, WIDTH - 4.0 * INSIDE), vec![]),
        };
        let below = if matches!(step, Step::Send { .. }) { 4.0 } else { 0.0 };
        Row { step, height: text.height() + below, text }
    }
}

fn arrow(out: &mut Picture, from: f64, to: f64, y: f64) {
    let side = (to - from).signum();
    out.path("edge", &format!("M{from:.1} {y:.1}H{:.1}", to - side * HEAD));
    out.path("head", &format!("M{to:.1} {y:.1}l{:.1} -4.5v9z", -side * HEAD));
}

fn boxed(out: &mut Picture, class: &str, lane: usize, top: f64, text: &Text, height: f64) {
    let (left, width) = LANES[lane];
    out.rectangle(class, &Frame { left: left + INSIDE, top, width: width - 2.0 * INSIDE, height }, 3);
    text.draw(out, middle(lane), top + (height - text.height()) / 2.0 + 1.0);
}

fn agreed(out: &mut Picture, actors: &[usize], things: &str, row: &Row, top: f64) {
    for &actor in actors {
        let text = Text { name: String::new(), lines: wrapped(things, room(actor)), quiet: vec![] };
        boxed(out, "held", actor, top, &text, row.height);
    }
    let (first, last) = (actors[0], actors[actors.len() - 1]);
    let y = top + row.height + 4.0;
    let (from, to) = (middle(first), middle(last));
    out.path("edge", &format!("M{from:.1} {:.1}V{y:.1}H{to:.1}V{:.1}", y - 4.0, y - 4.0));
    row.text.draw(out, middle(1), top - 4.0);
}

fn sent(out: &mut Picture, from: usize, to: usize, row: &Row, top: f64) {
    let y = top + row.height - 6.0;
    arrow(out, middle(from), middle(to), y);
    let next = if from < to { from + 1 } else { from - 1 };
    let gap = if from < to {
        (LANES[from].0 + LANES[from].1, LANES[next].0)
    } else {
        (LANES[next].0 + LANES[next].1, LANES[from].0)
    };
    row.text.draw(out, (gap.0 + gap.1) / 2.0, top - 4.0);
}

fn drawn(out: &mut Picture, row: &Row, top: f64) {
    match row.step {
        Step::Agreed { actors, things, .. } => agreed(out, actors, things, row, top),
        Step::Call { actor, .. } => boxed(out, "call", *actor, top, &row.text, row.height),
        Step::Send { from, to, .. } => sent(out, *from, *to, row, top),
        Step::Number { .. } => {
            let (left, right) = (LANES[0].0 + INSIDE, LANES[1].0 + LANES[1].1 - INSIDE);
            out.rectangle("number", &Frame { left, top, width: right - left, height: row.height }, 12);
            row.text.draw(out, (left + right) / 2.0, top + 1.0);
        }
        Step::End { .. } => {
            let b = Frame { left: MARGIN, top, width: WIDTH - 2.0 * MARGIN, height: row.height + 8.0 };
            out.rectangle("end", &b, 8);
            row.text.draw(out, WIDTH / 2.0, top + 4.0);
        }
    }
}

/// The title of a lane, what its actor holds, and what it sees.
fn head(actor: &Actor, lane: usize) -> Text {
    let holds =
        if actor.holds.is_empty() { String::new() } else { format!("Holds {}.", actor.holds.join(", ")) };
    let mut quiet = wrapped(&holds, room(lane));
    quiet.extend(wrapped(&actor.words, room(lane)));
    Text { name: actor.title.clone(), lines: quiet, quiet: vec![] }
}

pub fn draw(chain: &Chain) -> Result<String, String> {
    if chain.actors.len() != LANES.len() {
        return Err(format!("{} actors, where the picture has {} lanes", chain.actors.len(), LANES.len()));
    }
    let heads: Vec<Text> = chain.actors.iter().enumerate().map(|(lane, actor)| head(actor, lane)).collect();
    let rows: Vec<Row> = chain.steps.iter().map(Row::new).collect();
    let start = MARGIN + heads.iter().map(Text::height).fold(0.0, f64::max) + BETWEEN;
    let mut tops = vec![];
    let mut at = start;
    for row in &rows {
        at += if matches!(row.step, Step::End { .. }) { BETWEEN } else { 0.0 };
        tops.push(at);
        at += row.height + BETWEEN;
    }
    let last = rows.iter().position(|row| matches!(row.step, Step::End { .. })).ok_or("no line 'end'")?;
    let title = "The chain of calls: who holds what, what goes from one to the other, and where r, challenge and positions come from";
    let mut out = Picture::new(WIDTH, at + MARGIN, title, &STYLES);
    let first = rows.iter().position(|row| !matches!(row.step, Step::Agreed { .. })).unwrap_or(0);
    for (lane, head) in heads.iter().enumerate() {
        let (left, width) = LANES[lane];
        let bottom = tops[last] - BETWEEN;
        out.rectangle("band", &Frame { left, top: MARGIN, width, height: bottom - MARGIN }, 8);
        out.path("time", &format!("M{:.1} {:.1}V{bottom:.1}", middle(lane), tops[first]));
        head.draw(&mut out, middle(lane), MARGIN + 4.0);
    }
    rows.iter().zip(tops).for_each(|(row, top)| drawn(&mut out, row, top));
    Ok(out.end())
}
