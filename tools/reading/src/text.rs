//! The text of a file that is shown: its declarations that are reached, with their comments, modules and headings.

use crate::{source::File, source::Kind, source::Part, words};
use std::collections::{BTreeMap, BTreeSet};

/// The shown lines of a declaration: of a law its type alone.
pub fn lines_of(part: &Part, law: bool) -> Vec<String> {
    match law {
        true => part.clauses().0,
        false => part.lines.clone(),
    }
}

/// What stands before a declaration and is shown with it: the modules that it stands in, and the last heading.
#[derive(Default)]
struct Pending {
    parts: Vec<usize>,
    modules: BTreeSet<usize>,
}

impl Pending {
    /// A heading takes the place of those at its indentation or deeper.
    fn heading(&mut self, file: &File, place: usize) {
        let indent = file.parts[place].indent;
        self.parts
            .retain(|&other| file.parts[other].kind != Kind::Heading || file.parts[other].indent < indent);
        self.parts.push(place);
    }

    /// The waiting parts that belong to a declaration, in order.
    fn take(&mut self, file: &File, part: &Part, operators: &BTreeSet<String>) -> Vec<usize> {
        let mut taken = vec![];
        for place in std::mem::take(&mut self.parts) {
            let other = &file.parts[place];
            let shown = match other.kind {
                Kind::Module => part.within.contains(&place) && self.modules.insert(place),
                Kind::Infix => {
                    other.within.iter().all(|module| part.within.contains(module))
                        && is_used(other, operators)
                }
                _ => {
                    other.indent <= part.indent
                        && other.within.iter().all(|module| part.within.contains(module))
                }
            };
            taken.extend(Some(place).filter(|_| shown));
        }
        taken
    }
}

fn is_used(infix: &Part, operators: &BTreeSet<String>) -> bool {
    let line = words::of_line(&infix.lines[0]);
    line.last().is_some_and(|name| operators.contains(&words::used_form(name)))
}

/// The shown text of a file. `shown` says, by place, which declarations are shown and whether as a law.
pub fn of_file(file: &File, shown: &BTreeMap<usize, bool>) -> Vec<String> {
    let own = shown.iter().flat_map(|(&place, &law)| lines_of(&file.parts[place], law));
    let operators: BTreeSet<String> =
        words::of_lines(&own.collect::<Vec<_>>()).iter().map(|word| words::used_form(word)).collect();
    let mut text = file.header.clone();
    let mut pending = Pending::default();
    for (place, part) in file.parts.iter().enumerate() {
        match (&part.kind, shown.get(&place)) {
            (Kind::Heading, _) => pending.heading(file, place),
            (Kind::Declaration { .. }, Some(&law)) => {
                let before = pending.take(file, part, &operators);
                let mut joined = false;
                for &place in &before {
                    joined = put(&mut text, &file.parts[place], joined);
                }
                if !joined {
                    text.extend(Some(String::new()).filter(|_| !text.is_empty()));
                }
                text.extend(part.comment.iter().cloned());
                text.extend(lines_of(part, law));
            }
            (Kind::Declaration { .. }, None) => {}
            _ => pending.parts.push(place),
        }
    }
    text
}

/// Puts a module, an operator's rank or a heading; says whether the next line follows without a blank one.
fn put(text: &mut Vec<String>, part: &Part, joined: bool) -> bool {
    if !joined && !text.is_empty() {
        text.push(String::new());
    }
    text.extend(part.comment.iter().chain(&part.lines).cloned());
    part.kind == Kind::Infix || (part.kind == Kind::Module && part.lines.len() == 1)
}
