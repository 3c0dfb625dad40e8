//! What the names of the language and of the toolchain's libraries mean, in a few words each.

use crate::words;
use std::collections::BTreeSet;

/// What the names of the toolchain's libraries mean, for each group of libraries that pass the same names on.
pub struct Meanings {
    groups: Vec<(Vec<String>, Vec<(String, String)>)>,
}

impl Meanings {
    /// Reads `[LIBRARY, LIBRARY ..]` and below it lines `NAME meaning`; the name `others` stands for all others of these libraries.
    pub fn read(text: &str) -> Result<Self, String> {
        let mut groups: Vec<(Vec<String>, Vec<(String, String)>)> = vec![];
        for line in text.lines().filter(|line| !line.starts_with('#') && !line.trim().is_empty()) {
            if let Some(library) =
                line.strip_prefix('[').and_then(|rest| rest.strip_suffix(']')).filter(|name| !name.is_empty())
            {
                groups.push((library.split(", ").map(str::to_string).collect(), vec![]));
            } else {
                let (name, meaning) = line.split_once(' ').ok_or(format!("{line}: no meaning"))?;
                let names = &mut groups.last_mut().ok_or("the first line names no library")?.1;
                names.push((name.to_string(), meaning.trim().to_string()));
            }
        }
        Ok(Meanings { groups })
    }

    /// A row for each meaning. Each name that is reached has one, and each meaning has a name that is reached.
    pub fn rows(&self, reached: &BTreeSet<(String, String)>) -> Result<Vec<String>, String> {
        let mut rows = vec![];
        let mut left: BTreeSet<(String, String)> =
            reached.iter().map(|(library, name)| (library.clone(), words::used_form(name))).collect();
        for (libraries, names) in &self.groups {
            for (name, meaning) in names {
                let all = name == "others";
                let found: Vec<(String, String)> = left
                    .iter()
                    .filter(|known| libraries.contains(&known.0) && (all || known.1 == *name))
                    .cloned()
                    .collect();
                if found.is_empty() {
                    return Err(format!("tools/reading/words.txt: nothing uses {name} of {}", libraries[0]));
                }
                let names: BTreeSet<&String> = found.iter().map(|known| &known.1).collect();
                let shown: Vec<String> =
                    names.iter().map(|known| format!("`{}`", known.replace('|', "\\|"))).collect();
                rows.push(format!("| {} | {} | {meaning} |", libraries[0], shown.join(", ")));
                left.retain(|known| !found.contains(known));
            }
        }
        let missing: Vec<String> =
            left.iter().map(|(library, name)| format!("{name} of {library}")).collect();
        match missing.is_empty() {
            true => Ok(rows),
            false => Err(format!("tools/reading/words.txt has no meaning for {}", missing.join(", "))),
        }
    }
}
