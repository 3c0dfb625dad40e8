//! What is read of Rattle's own files: types that definitions name, and the contracts of exported functions.

use crate::{source, source::File, source::Kind, source::Part, words};

/// The types that a file of code declares, each as one declaration with its comment, and what its `ghost use` items bring in.
pub fn read(text: &str) -> File {
    let mut file = File::default();
    let mut comment: Vec<String> = vec![];
    let mut open = false;
    for line in text.lines() {
        let declared = line.strip_prefix("pub struct ").or(line.strip_prefix("pub enum "));
        if open {
            file.parts.last_mut().expect("a type is open").lines.push(line.to_string());
            open = line != "}";
        } else if let Some(rest) = declared {
            let name = rest.split(|c: char| !c.is_alphanumeric()).next().unwrap_or_default().to_string();
            let kind = Kind::Declaration { name, record: false, open: true };
            let (comment, lines) = (std::mem::take(&mut comment), vec![line.to_string()]);
            file.parts.push(Part { kind, indent: 0, within: vec![], comment, lines });
            open = !line.ends_with('}');
        } else if let Some(rest) = line.strip_prefix("ghost use ") {
            file.imports.push(source::import(rest.trim_end_matches(';')));
        } else if line.starts_with("//") {
            comment.push(line.to_string());
        } else {
            comment.clear();
        }
    }
    file
}

/// The types, other than numbers and such, that the fields of a struct have.
pub fn held_types(part: &Part) -> Vec<String> {
    let types = part.lines.iter().filter_map(|line| line.trim().strip_prefix("pub ")?.split_once(": "));
    let names = types.map(|(_, held)| held.trim_end_matches(',').to_string());
    names.filter(|name| name.starts_with(|c: char| c.is_uppercase())).collect()
}

/// An exported function: its comment, its signature with the contract, and its parameters.
pub struct Exported {
    pub name: String,
    pub comment: Vec<String>,
    pub lines: Vec<String>,
    pub parameters: Vec<String>,
}

/// The exported functions of a file of code, each up to its body.
pub fn exported(text: &str) -> Vec<Exported> {
    let mut functions: Vec<Exported> = vec![];
    let mut comment: Vec<String> = vec![];
    let mut open = false;
    for line in text.lines() {
        if let Some(rest) = line.strip_prefix("pub extern \"C\" fn ") {
            let name = rest.split('(').next().unwrap_or_default().to_string();
            functions.push(Exported {
                name,
                comment: std::mem::take(&mut comment),
                lines: vec![],
                parameters: vec![],
            });
            open = true;
        }
        match functions.last_mut().filter(|_| open) {
            Some(_) if line == "{" => open = false,
            Some(function) => function.lines.push(line.to_string()),
            None if line.starts_with("//") => comment.push(line.to_string()),
            None if line.starts_with("#[") => {}
            None => comment.clear(),
        }
    }
    functions.iter_mut().for_each(name_parameters);
    functions
}

fn name_parameters(function: &mut Exported) {
    let signature: Vec<&String> =
        function.lines.iter().take_while(|line| !line.contains(" ensures")).collect();
    for line in signature {
        let of_line = words::of_line(line);
        let names = of_line.iter().filter_map(|word| word.strip_suffix(':'));
        function.parameters.extend(names.map(str::to_string));
    }
}

impl Exported {
    /// The words of the contract: a clause's own name is none of them.
    pub fn contract(&self) -> Vec<Vec<String>> {
        let clauses = self
            .lines
            .iter()
            .filter(|line| source::indent_of(line) == 4 && line.trim().starts_with("ensures"));
        clauses
            .map(|line| {
                line.split_once('{')
                    .map_or(vec![], |(_, clause)| words::of_line(clause.trim_end_matches('}')))
            })
            .collect()
    }
}
