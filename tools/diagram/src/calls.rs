//! What the calls of rust/calls/calls.txt take and write.

use std::collections::BTreeMap;

#[derive(Default, Debug, PartialEq)]
pub struct Call {
    pub takes: Vec<String>,
    pub writes: Vec<String>,
}

pub struct Calls {
    pub calls: BTreeMap<String, Call>,
    /// The fields of an item.
    pub item: Vec<String>,
}

/// Sizes and counts, which are agreed on beforehand.
const SIZES: [&str; 5] = ["m", "n", "k", "l", "t"];

/// The names before the colons of `NAME: PART, ..`.
fn buffers(list: &str) -> impl Iterator<Item = String> + '_ {
    list.split(", ")
        .filter_map(|buffer| buffer.split_once(": "))
        .map(|(name, _)| name.trim_end_matches("_out").to_string())
}

impl Calls {
    pub fn read(text: &str) -> Result<Calls, String> {
        let mut read = Calls { calls: BTreeMap::new(), item: vec![] };
        let mut name = "";
        for line in text.lines().map(str::trim).filter(|line| !line.starts_with('#')) {
            let (word, rest) = line.split_once(' ').unwrap_or((line, ""));
            if word == "call" {
                name = rest.split(' ').next().unwrap_or_default();
                read.calls.insert(name.to_string(), Call::default());
            } else if let Some(fields) = line.strip_prefix("layout item = ") {
                read.item = fields
                    .split(", ")
                    .filter_map(|field| field.split(' ').next())
                    .map(String::from)
                    .collect();
            } else if let Some(call) = read.calls.get_mut(name) {
                match word {
                    "takes" => {
                        call.takes.extend(rest.split(' ').filter(|n| !SIZES.contains(n)).map(String::from))
                    }
                    "reads" => call.takes.extend(buffers(rest)),
                    "writes" => call.writes.extend(buffers(rest)),
                    _ => {}
                }
            }
        }
        match read.item.is_empty() || read.calls.is_empty() {
            true => Err("no calls, or no layout of an item".to_string()),
            false => Ok(read),
        }
    }
}

#[cfg(test)]
mod tests {
    use super::*;

    #[test]
    fn reads() {
        let text = "# calls\nlayout item = e 4, r 4*m\npart x = 4*n\n\ncall f -> 32\n  takes k challenge\n  reads w: witness, x: x\n  writes a_out: x\n  checks 2\ncall g -> 32\n";
        let read = Calls::read(text).unwrap();
        assert_eq!(read.item, ["e", "r"]);
        let words = |list: &[&str]| list.iter().map(|word| word.to_string()).collect();
        assert_eq!(read.calls["f"], Call { takes: words(&["challenge", "w", "x"]), writes: words(&["a"]) });
        assert_eq!(read.calls["g"], Call::default());
        assert!(Calls::read("call f -> 32\n").is_err());
    }
}
