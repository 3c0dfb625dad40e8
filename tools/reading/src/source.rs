//! A file of antt: its imports, its modules with parameters, and its declarations with their comments.

use crate::words;

pub struct Import {
    pub path: String,
    /// The names that are brought in, or one name for the whole module.
    pub names: Vec<String>,
    pub alias: Option<String>,
}

#[derive(PartialEq)]
pub enum Kind {
    /// A comment that stands alone.
    Heading,
    /// `module _ (..) where`, with the `open` lines behind it.
    Module,
    Infix,
    Declaration {
        name: String,
        record: bool,
        /// It can be unfolded, or is a record: `abbrev`, `unfoldable`, `record`.
        open: bool,
    },
}

/// A part of a file; `within` are the modules that it stands in, outermost first.
pub struct Part {
    pub kind: Kind,
    pub indent: usize,
    pub within: Vec<usize>,
    pub comment: Vec<String>,
    pub lines: Vec<String>,
}

#[derive(Default)]
pub struct File {
    pub header: Vec<String>,
    pub imports: Vec<Import>,
    pub parts: Vec<Part>,
}

pub fn indent_of(line: &str) -> usize {
    line.len() - line.trim_start().len()
}

impl Part {
    pub fn name(&self) -> Option<&str> {
        match &self.kind {
            Kind::Declaration { name, .. } => Some(name),
            _ => None,
        }
    }

    /// The lines of a declaration's type, and behind them its clauses, each with the lines that continue it.
    pub fn clauses(&self) -> (Vec<String>, Vec<Vec<String>>) {
        let mut signature = vec![];
        let mut clauses: Vec<Vec<String>> = vec![];
        for (i, line) in self.lines.iter().enumerate() {
            if i > 0 && indent_of(line) == self.indent {
                clauses.push(vec![]);
            }
            clauses.last_mut().unwrap_or(&mut signature).push(line.clone());
        }
        clauses.retain(|clause| !clause[0].trim().starts_with("unfolding "));
        (signature, clauses)
    }
}

/// The kind of declaration that a line starts, if any.
fn declared(line: &str) -> Option<Kind> {
    let mut rest = words::of_line(line);
    let mut take = |word: &str| {
        let found = rest.first().map(String::as_str) == Some(word);
        if found {
            rest.remove(0);
        }
        found
    };
    let open = take("abbrev") | take("unfoldable");
    take("pub");
    let record = take("record");
    let name = rest.first()?.clone();
    let typed = rest.get(1).map(String::as_str) == Some(":");
    (record || typed).then_some(Kind::Declaration { name, record, open: open || record })
}

pub fn import(line: &str) -> Import {
    let rest = line.trim_start_matches("use ").trim();
    if let Some((path, alias)) = rest.split_once(" as ") {
        return Import { path: path.into(), names: vec![], alias: Some(alias.trim().into()) };
    }
    let (path, names) = rest.split_once(".{").unwrap_or((rest, ""));
    let names = names.trim_end_matches('}').split(',').map(|name| name.trim().to_string());
    Import { path: path.into(), names: names.filter(|name| !name.is_empty()).collect(), alias: None }
}

#[derive(Default)]
struct Reader {
    file: File,
    comment: Vec<String>,
    modules: Vec<usize>,
    /// The last part is a declaration, and no blank line or comment came behind it.
    inside: bool,
}

impl Reader {
    fn push(&mut self, kind: Kind, line: &str) {
        let comment = match kind {
            Kind::Infix => vec![],
            _ => std::mem::take(&mut self.comment),
        };
        let (indent, within, lines) = (indent_of(line), self.modules.clone(), vec![line.to_string()]);
        self.file.parts.push(Part { kind, indent, within, comment, lines });
    }

    /// A comment without a declaration behind it is the file's, or a heading.
    fn blank(&mut self) {
        self.inside = false;
        let Some(first) = self.comment.first().cloned() else { return };
        let lines = std::mem::take(&mut self.comment);
        self.leave(indent_of(&first));
        self.push(Kind::Heading, &first);
        self.file.parts.last_mut().expect("just put there").lines = lines;
    }

    /// Leaves the modules that a line with this indentation does not stand in.
    fn leave(&mut self, indent: usize) {
        let parts = &self.file.parts;
        self.modules.retain(|&module| parts[module].indent < indent);
    }

    fn line(&mut self, line: &str) {
        let text = line.trim_start();
        let last = self.file.parts.last();
        if self.inside && last.is_some_and(|part| indent_of(line) > part.indent) {
            return self.extend(line);
        }
        if text.starts_with("--") {
            self.inside = false;
            self.comment.push(line.to_string());
        } else if text.starts_with("use ") {
            self.file.header.append(&mut self.comment);
            self.file.imports.push(import(text));
        } else if text.starts_with("open ") {
            let module = *self.modules.last().expect("open stands in a module");
            self.file.parts[module].lines.push(line.to_string());
        } else if text.starts_with("infix") {
            self.leave(indent_of(line));
            self.push(Kind::Infix, line);
        } else if text.starts_with("module ") {
            self.leave(indent_of(line));
            self.push(Kind::Module, line);
            self.modules.push(self.file.parts.len() - 1);
        } else if let Some(kind) = declared(line) {
            self.leave(indent_of(line));
            self.push(kind, line);
            self.inside = true;
        } else {
            self.extend(line);
        }
    }

    fn extend(&mut self, line: &str) {
        if let Some(part) = self.file.parts.last_mut() {
            part.lines.push(line.to_string());
        }
    }
}

pub fn read(text: &str) -> File {
    let mut reader = Reader::default();
    for line in text.lines().chain([""]) {
        match line.trim().is_empty() {
            true => reader.blank(),
            false => reader.line(line),
        }
    }
    reader.file
}
