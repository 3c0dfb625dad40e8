//! The names in a text that are not bound in it: what the text rests on.

use crate::{source, source::Part, words};

/// Words of the language that name nothing.
const MARKS: [&str; 17] = [
    "→", ":", "=", "in", "record", "elim", "where", "↦", "|", ".", "_", "let", "λ", "pub", "module", "⌜", "⌝",
];

/// A walk over words: the names bound at each depth of brackets, and the free names found.
pub struct Walk<'a> {
    bound: Vec<Vec<String>>,
    /// For each open bracket the names that it binds behind it, as `(x : A)` does.
    behind: Vec<Vec<String>>,
    pub free: Vec<String>,
    /// Whether a name is a constructor, which a pattern does not bind.
    constructor: &'a dyn Fn(&str) -> bool,
}

/// The names of a bracket `(x y : A)`, if it is one.
fn binders(behind: &[String]) -> Vec<String> {
    let names: Vec<String> =
        behind.iter().take_while(|word| !words::is_bracket(word) && *word != ":").cloned().collect();
    match behind.get(names.len()).map(String::as_str) {
        Some(":") => names,
        _ => vec![],
    }
}

impl<'a> Walk<'a> {
    pub fn new(constructor: &'a dyn Fn(&str) -> bool) -> Self {
        Walk { bound: vec![vec![]], behind: vec![], free: vec![], constructor }
    }

    pub fn bind(&mut self, names: &[String]) {
        let level = self.bound.last_mut().expect("one level stays");
        level.extend(names.iter().map(|name| words::used_form(name)));
    }

    fn is_bound(&self, word: &str) -> bool {
        self.bound.iter().flatten().any(|name| name == word)
    }

    fn close(&mut self) {
        if self.bound.len() > 1 {
            self.bound.pop();
        }
        let names = self.behind.pop().unwrap_or_default();
        self.bind(&names);
    }

    /// Binds the variables of a pattern; its constructors are free.
    fn pattern(&mut self, pattern: &[String]) {
        for word in pattern.iter().filter(|word| !words::is_bracket(word)) {
            match word.contains('.') || (self.constructor)(word) {
                true => self.name(word),
                false => self.bind(std::slice::from_ref(word)),
            }
        }
    }

    fn name(&mut self, word: &str) {
        let named = !MARKS.contains(&word)
            && !word.starts_with('.')
            && !word.starts_with(|c: char| c.is_ascii_digit());
        let word = words::used_form(word);
        if named && !self.is_bound(words::head(&word)) {
            self.free.push(word);
        }
    }

    /// Binds what stands behind a λ, a `let` or, in an `elim`, before a `↦`; says how many words that took.
    fn binder(&mut self, word: &str, behind: &[String]) -> usize {
        match word {
            "λ" if behind.first().is_some_and(|next| !words::is_bracket(next)) => {
                let count = behind.iter().take_while(|word| !word.ends_with('.')).count() + 1;
                let names: Vec<String> =
                    behind[..count].iter().map(|word| word.trim_end_matches('.').into()).collect();
                self.bind(&names);
                count
            }
            "let" => {
                self.bind(&behind[..1]);
                1
            }
            "[" | "|" => {
                let count = words::outside(behind, "↦").unwrap_or(0);
                self.pattern(&behind[..count]);
                count
            }
            _ => 0,
        }
    }

    pub fn walk(&mut self, text: &[String]) {
        let mut i = 0;
        while i < text.len() {
            let (word, behind) = (text[i].as_str(), &text[i + 1..]);
            i += 1;
            match word {
                "(" | "{" | "[" => {
                    let names = binders(behind);
                    i += names.len();
                    self.bound.push(vec![]);
                    self.behind.push(names);
                }
                ")" | "}" | "]" => self.close(),
                ";" | "," | "|" if self.bound.len() > 1 => {
                    self.bound.last_mut().expect("one level stays").clear()
                }
                _ if words::is_bracket(word) => {}
                _ => {
                    let label = behind.first().is_some_and(|next| next == "=")
                        && i >= 2
                        && [";", "{"].contains(&text[i - 2].as_str());
                    if !label {
                        self.name(word);
                    }
                }
            }
            i += self.binder(word, &text[i..]);
        }
    }

    /// A clause `f x y = body`, with what stands behind its `where`.
    fn clause(&mut self, own: &str, lines: &[String]) {
        let level = self.bound.len();
        self.bound.push(vec![]);
        let at = lines.iter().position(|line| line.trim() == "where").unwrap_or(lines.len());
        let (body, local) = lines.split_at(at);
        let text = words::of_lines(body);
        let equals = words::outside(&text, "=").unwrap_or(0);
        let left: Vec<String> = text[..equals].iter().filter(|word| *word != own).cloned().collect();
        self.pattern(&left);
        let locals: Vec<(Vec<String>, usize)> = local.iter().skip(1).map(|line| self.local(line)).collect();
        self.walk(&text[equals..]);
        for (text, from) in locals {
            self.walk(&text[from..]);
        }
        self.bound.truncate(level);
    }

    /// Binds what a line behind `where` declares or matches; its words, and where what it says begins.
    fn local(&mut self, line: &str) -> (Vec<String>, usize) {
        let text = words::of_line(line);
        let from = words::outside(&text, ":").or(words::outside(&text, "=")).unwrap_or(0);
        self.pattern(&text[..from]);
        (text, from)
    }

    /// A module's parameters, and the names that its `open` lines bring.
    pub fn module(&mut self, part: &Part) {
        for line in &part.lines {
            let text = words::of_line(line);
            let at = text.iter().position(|word| word == "use").unwrap_or(text.len());
            self.walk(&text[usize::from(text[0] == "open")..at]);
            let brought = text[at..].split(|word| words::is_bracket(word));
            let names: Vec<String> = brought
                .filter(|name| name.first().is_some_and(|word| word != "use"))
                .filter_map(|name| name.last().cloned())
                .collect();
            self.bind(&names);
        }
    }

    /// A record: its parameters, then each field's type; a field is bound in those behind it.
    pub fn record(&mut self, part: &Part) {
        let end = part.lines.iter().position(|line| line.ends_with(" where")).map_or(1, |at| at + 1);
        let mut header = words::of_lines(&part.lines[..end]);
        header.retain(|word| Some(word.as_str()) != part.name());
        self.walk(&header);
        let mut fields: Vec<Vec<String>> = vec![];
        for line in &part.lines[end..] {
            match source::indent_of(line) == part.indent + 2 && !line.trim().starts_with("--") {
                true => fields.push(words::of_line(line)),
                false => fields.last_mut().map_or((), |field| field.extend(words::of_line(line))),
            }
        }
        for field in fields {
            let colon = words::outside(&field, ":").unwrap_or(0);
            self.bound.push(vec![]);
            self.walk(&field[colon..]);
            self.bound.pop();
            self.bind(&field[..colon].iter().filter(|word| *word != "pub").cloned().collect::<Vec<_>>());
        }
    }

    /// A declaration's type, and its clauses where they are to be read too.
    pub fn declaration(&mut self, part: &Part, with_clauses: bool) {
        let own = words::used_form(part.name().unwrap_or_default());
        let (signature, clauses) = part.clauses();
        let text = words::of_lines(&signature);
        let colon = words::outside(&text, ":").unwrap_or(0);
        self.bound.push(vec![]);
        self.walk(&text[colon..]);
        self.bound.pop();
        for clause in clauses.iter().filter(|_| with_clauses) {
            self.clause(&own, clause);
        }
    }
}

#[cfg(test)]
mod tests {
    use super::*;

    fn free_in(text: &str) -> Vec<String> {
        let file = source::read(text);
        let constructor = |word: &str| ["suc", "zero"].contains(&word);
        let mut walk = Walk::new(&constructor);
        let part = file.parts.last().expect("a declaration");
        part.within.iter().for_each(|&module| walk.module(&file.parts[module]));
        match part.kind {
            source::Kind::Declaration { record: true, .. } => walk.record(part),
            _ => walk.declaration(part, true),
        }
        walk.free
    }

    #[test]
    fn a_label_is_no_name_and_its_value_is_one() {
        let text = "abbrev pub code : ℕ → Code\ncode k = record { k = k; depth = depth k }\n";
        assert_eq!(free_in(text), ["ℕ", "Code", "depth"]);
    }

    #[test]
    fn parameters_patterns_and_lambdas_bind() {
        let text = "module _ (I : Instance) where\n  open I use {field as F, hash}\n\n  unfoldable pub f : ℕ → List F\n  \
                    f zero = code\n  f (suc code) = map (λ at. hash at code) (at code)\n";
        assert_eq!(free_in(text), ["Instance", "ℕ", "List", "zero", "code", "suc", "map", "at"]);
    }

    #[test]
    fn a_field_binds_in_those_behind_it() {
        let text =
            "pub record R (m : ℕ) : Type 0 where\n  pub size : ℕ\n  pub fits : (i : ℕ) → i < size.low → P m Q.it i\n";
        assert_eq!(free_in(text), ["ℕ", "Type", "ℕ", "ℕ", "<", "P", "Q.it"]);
    }
}
