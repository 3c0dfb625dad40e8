//! The files of a repository, and what a name in one of them stands for.

use crate::{free::Walk, source, source::File, source::Kind, words};
use std::{cell::RefCell, collections::BTreeMap, fs, path::PathBuf, rc::Rc};

/// What a name stands for.
#[derive(Clone, PartialEq, Eq, PartialOrd, Ord, Debug)]
pub enum Target {
    /// A declaration of a file, as `theory/specs/Calls`.
    Declared(String, String),
    /// A name of the language or of the toolchain's libraries.
    Library(String, String),
}

/// The names that the language has without a `use`.
pub const LANGUAGE: &str = "the language";
const LANGUAGE_NAMES: [&str; 14] =
    ["Type", "Unit", "tt", "×", "⊥", "absurd", "IsSet", "Discrete", "Dec", "yes", "no", "omega", "now", "rw"];

/// A type that says something of its members is a law's: its proof need not be read.
const LAWS: [&str; 6] = ["≡", "≢", "<", "≤", "Prime", "Discrete"];

pub struct World {
    root: PathBuf,
    files: RefCell<BTreeMap<String, Rc<File>>>,
}

impl World {
    pub fn new(root: &str) -> Self {
        World { root: PathBuf::from(root), files: RefCell::default() }
    }

    /// The path of a file in the repository.
    pub fn path(&self, key: &str) -> String {
        let ending = if key.contains("/src/") { "rt" } else { "antt" };
        format!("crates/{key}.{ending}")
    }

    pub fn text(&self, path: &str) -> Result<String, String> {
        fs::read_to_string(self.root.join(path)).map_err(|error| format!("{path}: {error}"))
    }

    pub fn file(&self, key: &str) -> Result<Rc<File>, String> {
        if let Some(file) = self.files.borrow().get(key) {
            return Ok(file.clone());
        }
        let text = self.text(&self.path(key))?;
        let file =
            Rc::new(if key.contains("/src/") { crate::rattle::read(&text) } else { source::read(&text) });
        self.files.borrow_mut().insert(key.to_string(), file.clone());
        Ok(file)
    }

    /// The file and the name that a module's path and a name in it stand for.
    fn of_path(&self, path: &str, name: &str) -> Target {
        let library = || Target::Library(path.to_string(), name.to_string());
        let Some(rest) = path.strip_prefix("Rattle.") else { return library() };
        let mut steps = rest.split('.');
        let crate_name = steps.next().unwrap_or_default();
        let steps: Vec<&str> = steps.collect();
        if !self.root.join("crates").join(crate_name).is_dir() {
            return library();
        }
        match steps.as_slice() {
            [_, "declared", modules @ .., _, "TheVariants"] => Target::Declared(
                format!("{crate_name}/src/{}", modules.join("/")),
                steps[steps.len() - 2].into(),
            ),
            [_, "declared", modules @ .., _] => {
                Target::Declared(format!("{crate_name}/src/{}", modules.join("/")), name.into())
            }
            _ => Target::Declared(format!("{crate_name}/{}", steps.join("/")), name.into()),
        }
    }

    /// What a word of a file stands for.
    pub fn resolve(&self, key: &str, word: &str) -> Result<Target, String> {
        if word.starts_with("Rattle.") {
            let (path, name) = word.rsplit_once('.').ok_or(format!("{key}: {word}"))?;
            return Ok(self.of_path(path, name));
        }
        let file = self.file(key)?;
        if let Some((alias, name)) =
            word.split_once('.').filter(|(alias, name)| !alias.is_empty() && !name.is_empty())
        {
            if let Some(import) = file.imports.iter().find(|import| import.alias.as_deref() == Some(alias)) {
                return Ok(self.of_path(&import.path, name));
            }
        }
        let (whole, word) = (word, words::head(word));
        let named = |name: &str| words::used_form(name) == word;
        if let Some(name) = file.parts.iter().filter_map(|part| part.name()).find(|name| named(name)) {
            return Ok(Target::Declared(key.into(), name.into()));
        }
        for import in &file.imports {
            if let Some(name) = import.names.iter().find(|name| named(name)) {
                return Ok(self.of_path(&import.path, name));
            }
        }
        match LANGUAGE_NAMES.contains(&word) {
            true => Ok(Target::Library(LANGUAGE.into(), word.into())),
            false => Err(format!("{key}: {whole} is unknown")),
        }
    }

    /// Whether a name is a constructor where it stands in a pattern: one of a library, or of a type that code declares.
    pub fn is_constructor(&self, key: &str, word: &str) -> bool {
        match self.resolve(key, word) {
            Ok(Target::Library(..)) => true,
            Ok(Target::Declared(file, _)) => file.contains("/src/"),
            Err(_) => false,
        }
    }

    /// The place of a declaration in its file.
    pub fn place(&self, key: &str, name: &str) -> Result<usize, String> {
        let file = self.file(key)?;
        let found = file.parts.iter().position(|part| part.name() == Some(name));
        found.ok_or(format!("{key} has no {name}"))
    }

    /// Whether a declaration is a law, of which the type is read and not the proof.
    pub fn is_law(&self, key: &str, place: usize) -> Result<bool, String> {
        let file = self.file(key)?;
        let Kind::Declaration { open, .. } = file.parts[place].kind else { return Ok(false) };
        let (signature, _) = file.parts[place].clauses();
        let text = words::of_lines(&signature);
        let result = text.iter().rposition(|word| word == "→").map_or(&text[..], |at| &text[at..]);
        Ok(!open
            && !key.contains("/src/")
            && (key.contains("/proofs/") || result.iter().any(|word| LAWS.contains(&word.as_str()))))
    }

    /// What a declaration rests on, directly.
    pub fn rests_on(&self, key: &str, place: usize) -> Result<Vec<Target>, String> {
        let file = self.file(key)?;
        let part = &file.parts[place];
        if key.contains("/src/") {
            return crate::rattle::held_types(part).iter().map(|name| self.resolve(key, name)).collect();
        }
        let constructor = |word: &str| self.is_constructor(key, word);
        let mut walk = Walk::new(&constructor);
        for &module in &part.within {
            walk.module(&file.parts[module]);
        }
        match part.kind {
            Kind::Declaration { record: true, .. } => walk.record(part),
            _ => walk.declaration(part, !self.is_law(key, place)?),
        }
        let mut targets = vec![];
        for word in &walk.free {
            let target = self.resolve(key, word)?;
            let own = Target::Declared(key.into(), part.name().unwrap_or_default().into());
            if target != own && !targets.contains(&target) {
                targets.push(target);
            }
        }
        Ok(targets)
    }
}
