//! The chain of calls, from docs/chain.txt: its actors and, in order, what they do. What an actor is said to do must be possible with what it holds.

use crate::calls::Calls;
use std::collections::{BTreeMap, BTreeSet};

pub struct Actor {
    pub name: String,
    pub title: String,
    pub words: String,
    pub holds: Vec<String>,
}

#[derive(Debug, PartialEq)]
pub enum Step {
    /// What some actors have beforehand.
    Agreed {
        actors: Vec<usize>,
        things: String,
        words: String,
    },
    Call {
        actor: usize,
        name: String,
        signature: String,
        words: String,
    },
    /// Where a number comes from: drawn by a call, or picked.
    Number {
        name: String,
        actors: Vec<usize>,
        call: String,
        signature: String,
        words: String,
    },
    Send {
        from: usize,
        to: usize,
        things: String,
        words: String,
    },
    End {
        words: String,
    },
}

pub struct Chain {
    pub actors: Vec<Actor>,
    pub steps: Vec<Step>,
}

/// The calls that a chain has.
const CALLS: [&str; 11] = [
    "encode",
    "draw_r",
    "cast",
    "quotient",
    "draw_challenge",
    "fold",
    "draw_positions",
    "open",
    "interleave",
    "verify",
    "decide",
];

/// A thing without what tells one from several, or a part from the whole: an item's root is held by whoever holds the item.
fn plain(thing: &str) -> &str {
    let thing = thing.trim_start_matches("root of the ");
    thing
        .strip_suffix("es")
        .filter(|_| thing.ends_with("sses"))
        .or(thing.strip_suffix('s').filter(|_| !thing.ends_with("ss")))
        .unwrap_or(thing)
}

struct Reader<'a> {
    calls: &'a Calls,
    words: BTreeMap<(String, String), String>,
    chain: Chain,
    held: Vec<BTreeSet<String>>,
    called: BTreeSet<String>,
}

impl Reader<'_> {
    fn actor(&self, name: &str) -> Result<usize, String> {
        self.chain.actors.iter().position(|actor| actor.name == name).ok_or(format!("{name} is no actor"))
    }

    fn gets(&mut self, actor: usize, things: &[String]) {
        for thing in things {
            self.held[actor].insert(plain(thing).to_string());
            if plain(thing) == "item" {
                self.held[actor].extend(self.calls.item.iter().cloned());
            }
        }
    }

    fn must_hold(&self, actor: usize, things: &[String], what: &str) -> Result<(), String> {
        match things.iter().find(|thing| !self.held[actor].contains(plain(thing))) {
            Some(thing) => Err(format!("{what}: {} does not hold {thing}", self.chain.actors[actor].name)),
            None => Ok(()),
        }
    }

    /// The words for a call's buffers, each once.
    fn in_words(&self, call: &str, buffers: &[String]) -> Vec<String> {
        let mut words: Vec<String> = vec![];
        for buffer in buffers {
            let key = |call: &str| (call.to_string(), buffer.clone());
            let word = self.words.get(&key(call)).or(self.words.get(&key(""))).unwrap_or(buffer);
            if !words.contains(word) {
                words.push(word.clone());
            }
        }
        words
    }

    /// What actors do with a call: they hold what it takes, and get what it writes. Gives this in words.
    fn run(&mut self, actors: &[usize], name: &str) -> Result<String, String> {
        let call = self.calls.calls.get(name).ok_or(format!("{name} is no call of rust/calls/calls.txt"))?;
        let (takes, writes) = (self.in_words(name, &call.takes), self.in_words(name, &call.writes));
        for &actor in actors {
            self.must_hold(actor, &takes, name)?;
            self.gets(actor, &writes);
        }
        self.called.insert(name.to_string());
        let result = if writes.is_empty() { "verdict".to_string() } else { writes.join(", ") };
        Ok(format!("{} → {result}", takes.join(", ")))
    }

    fn line(&mut self, line: &str) -> Result<(), String> {
        let (head, rest) = line.split_once([':', ';']).unwrap_or((line, ""));
        let (things, words) = match line[head.len()..].starts_with(':') {
            true => rest.split_once(';').unwrap_or((rest, "")),
            false => ("", rest),
        };
        let (things, words) = (things.trim().to_string(), words.trim().to_string());
        let list: Vec<String> = things.split(", ").map(String::from).collect();
        match head.split_whitespace().collect::<Vec<_>>()[..] {
            ["word", buffer] => drop(self.words.insert((String::new(), buffer.into()), things)),
            ["word", call, buffer] => drop(self.words.insert((call.into(), buffer.into()), things)),
            ["actor", name] => {
                self.held.push(BTreeSet::new());
                self.chain.actors.push(Actor { name: name.into(), title: things, words, holds: vec![] });
            }
            ["holds", name] => {
                let actor = self.actor(name)?;
                self.gets(actor, &list);
                self.chain.actors[actor].holds.extend(list);
            }
            _ => self.step(head, things, &list, words)?,
        }
        Ok(())
    }

    fn step(&mut self, head: &str, things: String, list: &[String], words: String) -> Result<(), String> {
        let step = match head.split_whitespace().collect::<Vec<_>>()[..] {
            ["agreed", ref actors @ ..] => {
                let actors = actors.iter().map(|name| self.actor(name)).collect::<Result<Vec<_>, _>>()?;
                actors.iter().for_each(|&actor| self.gets(actor, list));
                Step::Agreed { actors, things, words }
            }
            ["call", actor, name] => {
                let actor = self.actor(actor)?;
                Step::Call { actor, name: name.into(), signature: self.run(&[actor], name)?, words }
            }
            ["number", name, actors, call] => {
                let actors = actors.split(',').map(|name| self.actor(name)).collect::<Result<Vec<_>, _>>()?;
                let signature = self.run(&actors, call)?;
                Step::Number { name: name.into(), actors, call: call.into(), signature, words }
            }
            ["send", from, to] => {
                let (from, to) = (self.actor(from)?, self.actor(to)?);
                self.must_hold(from, list, "send")?;
                self.gets(to, list);
                Step::Send { from, to, things, words }
            }
            ["end"] => Step::End { words: things },
            _ => return Err(format!("'{head}' is none of the lines that are known")),
        };
        self.chain.steps.push(step);
        Ok(())
    }
}

pub fn read(text: &str, calls: &Calls) -> Result<Chain, String> {
    let chain = Chain { actors: vec![], steps: vec![] };
    let mut reader = Reader { calls, words: BTreeMap::new(), chain, held: vec![], called: BTreeSet::new() };
    for line in text.lines().filter(|line| !line.starts_with('#') && !line.trim().is_empty()) {
        reader.line(line).map_err(|error| format!("{error}, in '{line}'"))?;
    }
    match CALLS.iter().find(|name| !reader.called.contains(**name)) {
        Some(name) => Err(format!("the call {name} is missing")),
        None => Ok(reader.chain),
    }
}

#[cfg(test)]
mod tests;
