//! Parts of a picture: texts, lines of a text, boxes, and styles for light and dark pages. A picture has its own background, so that it can be read on a page
//! of either kind.

use std::fmt::Write;

pub const SIZE: f64 = 12.0;
pub const LINE: f64 = 15.0;
pub const HEAD: f64 = 7.0;

/// A class with its style on a light page and what is different on a dark one.
pub type Style = (&'static str, &'static str, &'static str);

/// The styles that pictures have in common.
const COMMON: [Style; 7] = [
    ("page", "fill:#ffffff", "fill:#0d1117"),
    ("name", "font-size:15px;font-weight:bold", ""),
    ("label", "font-size:13px;font-weight:bold;letter-spacing:1px;fill:#57606a", "fill:#9da7b3"),
    ("time", "fill:none;stroke:#c3cad1;stroke-dasharray:2 4", "stroke:#444c56"),
    ("edge", "fill:none;stroke:#77808a;stroke-width:1.5", "stroke:#8b949e"),
    ("head", "fill:#77808a", "fill:#8b949e"),
    ("band", "fill:#f4f6f8;stroke:#d3d9df", "fill:#171b21;stroke:#353c46"),
];

/// The width of a text in em, for a wide font: where another is used there is room left.
pub fn ems(text: &str) -> f64 {
    let em = |c: char| match c {
        'i' | 'j' | 'l' | 't' | 'f' | 'r' | ' ' | '.' | ',' | ':' | ';' | '\'' | '(' | ')' => 0.4,
        'm' | 'w' | 'M' | 'W' => 0.95,
        '→' => 0.9,
        c if c.is_ascii_uppercase() => 0.72,
        _ => 0.63,
    };
    text.chars().map(em).sum()
}

/// The lines of a text in so much room.
pub fn wrapped(text: &str, room: f64) -> Vec<String> {
    let mut lines: Vec<String> = vec![];
    for word in text.split_whitespace() {
        match lines.last_mut() {
            Some(line) if (ems(line) + ems(" ") + ems(word)) * SIZE <= room => *line += &format!(" {word}"),
            _ => lines.push(word.to_string()),
        }
    }
    lines
}

fn escaped(text: &str) -> String {
    text.replace('&', "&amp;").replace('<', "&lt;").replace('>', "&gt;")
}

pub struct Frame {
    pub left: f64,
    pub top: f64,
    pub width: f64,
    pub height: f64,
}

/// A picture, as far as it is drawn.
pub struct Picture(String);

impl Picture {
    pub fn new(width: f64, height: f64, title: &str, styles: &[Style]) -> Picture {
        let mut out = format!(
            "<svg xmlns=\"http://www.w3.org/2000/svg\" viewBox=\"0 0 {width:.0} {height:.0}\" width=\"{width:.0}\" height=\"{height:.0}\" role=\"img\">\n"
        );
        let all = || COMMON.iter().chain(styles);
        writeln!(out, "<title>{}</title>\n<style>", escaped(title)).unwrap();
        writeln!(out, "text{{font-family:Helvetica,Arial,'Liberation Sans','DejaVu Sans',sans-serif;font-size:{SIZE}px;text-anchor:middle;fill:#1c1c1c}}").unwrap();
        all().for_each(|(class, light, _)| writeln!(out, ".{class}{{{light}}}").unwrap());
        writeln!(out, "@media (prefers-color-scheme:dark){{\ntext{{fill:#e6edf3}}").unwrap();
        let dark = all().filter(|style| !style.2.is_empty());
        dark.for_each(|(class, _, dark)| writeln!(out, ".{class}{{{dark}}}").unwrap());
        let mut picture = Picture(out + "}\n</style>\n");
        picture.rectangle("page", &Frame { left: 0.0, top: 0.0, width, height }, 8);
        picture
    }

    pub fn rectangle(&mut self, class: &str, b: &Frame, round: u32) {
        let Frame { left, top, width, height } = b;
        writeln!(self.0, r#"<rect class="{class}" x="{left:.1}" y="{top:.1}" width="{width:.1}" height="{height:.1}" rx="{round}"/>"#).unwrap();
    }

    pub fn text(&mut self, class: &str, x: f64, y: f64, text: &str) {
        let class = if class.is_empty() { String::new() } else { format!(r#" class="{class}""#) };
        writeln!(self.0, r#"<text{class} x="{x:.1}" y="{y:.1}">{}</text>"#, escaped(text)).unwrap();
    }

    /// A text that runs upwards.
    pub fn upwards(&mut self, class: &str, x: f64, y: f64, text: &str) {
        writeln!(
            self.0,
            r#"<text class="{class}" transform="translate({x:.1} {y:.1}) rotate(-90)">{}</text>"#,
            escaped(text)
        )
        .unwrap();
    }

    /// A path; with a class that fills, a shape.
    pub fn path(&mut self, class: &str, path: &str) {
        writeln!(self.0, r#"<path class="{class}" d="{path}"/>"#).unwrap();
    }

    pub fn end(mut self) -> String {
        self.0 += "</svg>\n";
        self.0
    }
}

#[cfg(test)]
mod tests {
    use super::*;

    #[test]
    fn lines_keep_to_the_room() {
        let lines = wrapped("checks that several calls share, and one more", 100.0);
        assert!(lines.len() > 1 && lines.iter().all(|line| ems(line) * SIZE <= 100.0));
        assert_eq!(lines.join(" "), "checks that several calls share, and one more");
    }

    #[test]
    fn both_pages_have_a_style() {
        let text = Picture::new(1.0, 1.0, "a < b", &[("own", "fill:#fff", "fill:#000")]).end();
        assert!(text.contains("a &lt; b") && text.contains(".own{fill:#fff}"));
        assert!(text.split("prefers-color-scheme:dark").nth(1).unwrap().contains(".own{fill:#000}"));
    }
}
