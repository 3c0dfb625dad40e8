//! The list: a table of what rests on how much, the words of the toolchain, the definitions, and the names by theorem and call. And its index: the table, and
//! the sections.

use crate::{
    meanings::Meanings,
    rattle::Exported,
    reach::{Place, Reached, Reader, Root},
    text,
    world::Target,
};
use std::collections::{BTreeMap, BTreeSet};

pub struct Page<'a> {
    pub reader: &'a Reader<'a>,
    pub instance: Root,
    pub roots: Vec<Root>,
    /// The files that export calls, with their functions.
    pub exports: Vec<(&'static str, Vec<Exported>)>,
    pub meanings: Meanings,
}

impl Page<'_> {
    /// How many lines the declarations at some places take, with their comments.
    fn lines(&self, places: &BTreeSet<Place>) -> Result<usize, String> {
        let mut count = 0;
        for &(rank, place) in places {
            let key = &self.reader.order.files[rank];
            let file = self.reader.world.file(key)?;
            let part = &file.parts[place];
            count += part.comment.len() + text::lines_of(part, self.reader.world.is_law(key, place)?).len();
        }
        Ok(count)
    }

    fn all(&self) -> Reached {
        let mut all = self.instance.reached.clone();
        for root in &self.roots {
            all.places.extend(&root.reached.places);
            all.libraries.extend(root.reached.libraries.iter().cloned());
        }
        all
    }

    fn row(&self, name: &str, places: &BTreeSet<Place>) -> Result<String, String> {
        Ok(format!("| {name} | {} | {} |", places.len(), self.lines(places)?))
    }

    fn counts(&self, all: &Reached) -> Result<Vec<String>, String> {
        let mut rows = vec!["| | definitions | lines |".to_string(), "|---|---|---|".to_string()];
        for root in &self.roots {
            rows.push(self.row(&format!("`{}`", root.name), &root.reached.places)?);
        }
        let calls = self.roots.iter().filter(|root| root.name.starts_with("lomvuze_"));
        rows.push(
            self.row("all the calls", &calls.flat_map(|root| root.reached.places.iter().copied()).collect())?,
        );
        rows.push(self.row("all of these", &all.places)?);
        rows.push(self.row("the instance `fp` alone", &self.instance.reached.places)?);
        Ok(rows)
    }

    /// The names at some places, file by file, with the lines that they take where that is asked for.
    fn names(&self, places: &BTreeSet<Place>, with_lines: bool) -> Result<String, String> {
        let mut files: BTreeMap<usize, BTreeSet<Place>> = BTreeMap::new();
        for &place in places {
            files.entry(place.0).or_default().insert(place);
        }
        let mut listed = vec![];
        for (rank, places) in files {
            let file = self.reader.world.file(&self.reader.order.files[rank])?;
            let names: Vec<String> = places
                .iter()
                .filter_map(|place| file.parts[place.1].name())
                .map(|name| format!("`{name}`"))
                .collect();
            let lines = if with_lines { format!(" ({})", self.lines(&places)?) } else { String::new() };
            listed.push(format!("{}{lines}: {}", self.short(rank), names.join(", ")));
        }
        Ok(listed.join("; "))
    }

    /// A file by its crate and its own name.
    fn short(&self, rank: usize) -> String {
        let key = &self.reader.order.files[rank];
        let steps: Vec<&str> = key.split('/').collect();
        format!("{}/{}", steps[0], steps[steps.len() - 1])
    }

    fn file(&self, rank: usize, all: &Reached) -> Result<Vec<String>, String> {
        let key = &self.reader.order.files[rank];
        let places = all.places.iter().filter(|place| place.0 == rank);
        let shown: BTreeMap<usize, bool> = places
            .map(|&(_, place)| Ok((place, self.reader.world.is_law(key, place)?)))
            .collect::<Result<_, String>>()?;
        if shown.is_empty() {
            return Err(format!("tools/reading/sections.txt: nothing reaches {key}"));
        }
        let mut out = vec![format!("### {}", self.reader.world.path(key)), String::new()];
        let uses = self.uses(rank, &shown)?;
        if !uses.is_empty() {
            out.extend(wrapped(&format!("It names {uses}.")));
            out.push(String::new());
        }
        out.push("```text".into());
        out.extend(text::of_file(&*self.reader.world.file(key)?, &shown));
        out.extend(["```".into(), String::new()]);
        Ok(out)
    }

    /// The names of other files that the shown declarations of a file use.
    fn uses(&self, rank: usize, shown: &BTreeMap<usize, bool>) -> Result<String, String> {
        let mut places = BTreeSet::new();
        for &place in shown.keys() {
            for target in &self.reader.direct[&(rank, place)] {
                if let Target::Declared(key, name) = target {
                    places.insert(self.reader.place_of(key, name)?);
                }
            }
        }
        places.retain(|place| place.0 != rank);
        self.names(&places, false)
    }

    fn contracts(&self) -> Vec<String> {
        let mut out = vec!["## The exported calls".to_string(), String::new()];
        out.extend(["The functions without their bodies.".into(), String::new()]);
        for (key, functions) in &self.exports {
            out.extend([format!("### {}", self.reader.world.path(key)), String::new(), "```text".into()]);
            for (i, function) in functions.iter().enumerate() {
                out.extend(Some(String::new()).filter(|_| i > 0));
                out.extend(function.comment.iter().chain(&function.lines).cloned());
            }
            out.extend(["```".into(), String::new()]);
        }
        out
    }

    fn lists(&self) -> Result<Vec<String>, String> {
        let mut out = vec!["## The names by theorem and call".to_string(), String::new()];
        out.extend(["Behind a file stand the lines that the names take.".into(), String::new()]);
        let base = &self.instance.reached.places;
        out.extend(wrapped(&format!("**`fp`**: {}.", self.names(base, true)?)));
        for root in &self.roots {
            let on_base = root.reached.places.is_superset(base);
            let rest: BTreeSet<Place> = root
                .reached
                .places
                .iter()
                .filter(|place| !on_base || !base.contains(place))
                .copied()
                .collect();
            let before = if on_base { "those of `fp`, and " } else { "" };
            out.push(String::new());
            out.extend(wrapped(&format!("**`{}`**: {before}{}.", root.name, self.names(&rest, true)?)));
        }
        Ok(out)
    }

    /// The whole list. `intro` is the text before the definitions, with places for the counts and the words.
    pub fn list(&self, intro: &str) -> Result<String, String> {
        let all = self.all();
        let counts = self.counts(&all)?.join("\n");
        let meanings = self.meanings.rows(&all.libraries)?.join("\n");
        let mut out =
            vec![intro.trim_end().replace("@COUNTS@", &counts).replace("@WORDS@", &meanings), String::new()];
        for (title, files) in &self.reader.order.sections {
            out.extend([format!("## {title}"), String::new()]);
            for &rank in files {
                out.extend(self.file(rank, &all)?);
            }
        }
        out.extend(self.contracts());
        out.extend(self.lists()?);
        Ok(out.join("\n") + "\n")
    }

    /// The index of the list. `frame` is its text, with places for counts, sections, the number of lines and the checksum.
    pub fn index(&self, frame: &str, list: &str, sum: &str) -> Result<String, String> {
        let counts = self.counts(&self.all())?.join("\n");
        let lines = list.lines().count().to_string();
        let sections: Vec<String> =
            self.reader.order.sections.iter().map(|(title, files)| self.section(title, files)).collect();
        let values = [
            ("@COUNTS@", counts),
            ("@SECTIONS@", sections.join("\n")),
            ("@LINES@", lines),
            ("@SUM@", sum.into()),
        ];
        Ok(values.iter().fold(frame.to_string(), |text, (place, value)| text.replace(place, value)))
    }

    /// A section's files, with links from docs/.
    fn section(&self, title: &str, files: &[usize]) -> String {
        let link = |&rank: &usize| {
            format!("[{}](../{})", self.short(rank), self.reader.world.path(&self.reader.order.files[rank]))
        };
        let files: Vec<String> = files.iter().map(link).collect();
        wrapped(&format!("- **{title}**: {}", files.join(", "))).join("\n  ")
    }
}

/// A paragraph in lines of at most 150 characters.
fn wrapped(text: &str) -> Vec<String> {
    let mut lines: Vec<String> = vec![String::new()];
    for word in text.split(' ') {
        let line = lines.last_mut().expect("one line is there");
        if !line.is_empty() && line.chars().count() + 1 + word.chars().count() > 150 {
            lines.push(word.to_string());
        } else {
            line.push_str(if line.is_empty() { "" } else { " " });
            line.push_str(word);
        }
    }
    lines
}
