//! The crates of a repository: who stands on whom, in which band each is drawn, its kind, and what it promises in a few words.

use crate::{bands::Bands, graph::Graph};
use std::{fs, path::Path};

#[derive(Clone, Copy, PartialEq, Debug)]
pub enum Kind {
    Theory,
    Library,
    Exported,
    Program,
}

pub struct Crates {
    pub graph: Graph,
    pub bands: Bands,
    /// Of each crate its band.
    pub band: Vec<usize>,
    pub kinds: Vec<Kind>,
    pub words: Vec<String>,
}

const WORDS: &str = "docs/crates-in-words.txt";

pub fn text(path: &Path) -> Result<String, String> {
    fs::read_to_string(path).map_err(|error| format!("{}: {error}", path.display()))
}

fn is_comment(line: &str) -> bool {
    line.trim().is_empty() || line.starts_with("//") || line.starts_with("#![")
}

/// The kind of a crate, by its source files.
fn kind(folder: &Path) -> Result<Kind, String> {
    if folder.join("main.rt").exists() {
        return Ok(Kind::Program);
    }
    let source = text(&folder.join("lib.rt"))?;
    let mut exported = false;
    for entry in fs::read_dir(folder).map_err(|error| error.to_string())? {
        let path = entry.map_err(|error| error.to_string())?.path();
        exported |= path.is_file() && text(&path)?.contains("extern \"C\" fn");
    }
    Ok(match source.lines().all(is_comment) {
        true => Kind::Theory,
        false if exported => Kind::Exported,
        false => Kind::Library,
    })
}

pub fn read(root: &Path) -> Result<Crates, String> {
    let graph = Graph::read(&text(&root.join("crates.txt"))?)?;
    let in_words = |error| format!("{WORDS}: {error}");
    let bands = Bands::read(&text(&root.join(WORDS))?).map_err(in_words)?;
    let found = bands.of(&graph.names).map_err(in_words)?;
    let band: Vec<usize> = found.iter().map(|(band, _)| *band).collect();
    let words = found.iter().map(|(_, words)| words.to_string()).collect();
    for (c, below) in graph.below.iter().enumerate() {
        if let Some(&b) = below.iter().find(|&&b| bands.0[band[b]].row > bands.0[band[c]].row) {
            return Err(in_words(format!(
                "{} stands on {}, whose band is above its own",
                graph.names[c], graph.names[b]
            )));
        }
    }
    let folder = |name: &String| root.join("crates").join(name).join("src");
    let kinds = graph.names.iter().map(|name| kind(&folder(name))).collect::<Result<_, _>>()?;
    Ok(Crates { graph, bands, band, kinds, words })
}
