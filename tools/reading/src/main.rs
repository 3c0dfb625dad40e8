//! Writes the reading list on standard output: the definitions that the theorems and the exported calls rest on, copied from specs/ in reading order; or its
//! index, with the checksum of the list that is lent. It fails where a name is unknown, stands in no section, or stands behind what uses it.
//!
//! Usage: lomvuze-reading list REPOSITORY
//!        lomvuze-reading index REPOSITORY CHECKSUM

mod free;
mod meanings;
mod page;
mod rattle;
mod reach;
mod source;
mod text;
mod words;
mod world;

use reach::{Order, Reader, Root};
use std::{env, process::ExitCode};
use world::{Target, World};

/// The theorems, as file and name.
const THEOREMS: [(&str, &str); 34] = [
    ("theory/proofs/QuotientStated", "quotient-theorem"),
    ("theory/proofs/FirstStatement", "first-statement"),
    ("theory/proofs/SecondStatement", "second-statement"),
    ("draw/proofs/DrawnStatement", "drawn-statement"),
    ("draw/proofs/Permitted", "drawn-challenge-permitted"),
    ("draw/proofs/Permitted", "drawn-positions-permitted"),
    ("draw/proofs/Permitted", "drawn-r-fits"),
    ("draw/proofs/Permitted", "drawn-r-below"),
    ("theory/proofs/Challenges", "permitted-is-no-node"),
    ("theory/proofs/Challenges", "each-item-counts"),
    ("theory/proofs/Challenges", "fold-at-node"),
    ("theory/proofs/CombinationLaws", "L-sum"),
    ("theory/proofs/LeadingOne", "new-leading-one"),
    ("theory/proofs/LeadingOne", "verified-never-13"),
    ("theory/proofs/LeadingOne", "folded-never-13"),
    ("theory/proofs/BlockCount", "blocks-at-most"),
    ("theory/proofs/BlockCount", "blocks-few"),
    ("theory/proofs/BlockCount", "accepted-blocks"),
    ("theory/proofs/BlockCount", "refused-before-8"),
    ("theory/proofs/BlockCount", "refused-by-8"),
    ("theory/proofs/BlockCount", "refused-by-9"),
    ("theory/proofs/BlockCount", "answer-read-back"),
    ("theory/proofs/BuiltInPoints", "by-hand-fit"),
    ("theory/proofs/BuiltInPoints", "by-hand-differ"),
    ("theory/proofs/BuiltInPoints", "by-hand-used"),
    ("theory/proofs/BuiltInPoints", "encode-by-hand"),
    ("theory/proofs/BuiltInPoints", "open-by-hand"),
    ("theory/proofs/BuiltInPoints", "cast-by-hand"),
    ("theory/proofs/BuiltInPoints", "quotient-by-hand"),
    ("theory/proofs/BuiltInPoints", "fold-by-hand"),
    ("theory/proofs/BuiltInPoints", "decide-by-hand"),
    ("theory/proofs/Cases", "cases-hold"),
    ("tree/proofs/Positions", "opening-fixes-position"),
    ("roundtrip/proofs/RoundTrip", "read-written"),
];

/// The instance that the calls and both theorems are about.
const INSTANCE: (&str, &str) = ("theory/specs/Fp", "fp");
/// The files that export calls.
const EXPORTS: [&str; 2] = ["verdicts_c/src/lib", "verdicts_c/src/drawing"];

const USAGE: &str =
    "usage: lomvuze-reading list REPOSITORY\n       lomvuze-reading index REPOSITORY CHECKSUM";

/// The theorems and the calls with all that they rest on, as the page that is asked for.
fn written(arguments: &[&str]) -> Result<String, String> {
    let &[kind, root, ..] = arguments else { return Err(USAGE.into()) };
    let world = World::new(root);
    let order = Order::read(&world.text("tools/reading/sections.txt")?)?;
    let mut reader = Reader::new(&world, &order);
    let mut declared = |(key, name): (&str, &str)| -> Result<Root, String> {
        let reached = reader.follow(vec![Target::Declared(key.into(), name.into())])?;
        Ok(Root { name: name.to_string(), reached })
    };
    let instance = declared(INSTANCE)?;
    let mut roots = THEOREMS.into_iter().map(declared).collect::<Result<Vec<_>, _>>()?;
    let mut exports = vec![];
    for key in EXPORTS {
        let functions = rattle::exported(&world.text(&world.path(key))?);
        for function in &functions {
            let reached = reader.contract(key, function)?;
            roots.push(Root { name: function.name.clone(), reached });
        }
        exports.push((key, functions));
    }
    let meanings = meanings::Meanings::read(&world.text("tools/reading/words.txt")?)?;
    let page = page::Page { reader: &reader, instance, roots, exports, meanings };
    let list = page.list(&world.text("tools/reading/intro.txt")?)?;
    match (kind, &arguments[2..]) {
        ("list", []) => Ok(list),
        ("index", [sum]) => page.index(&world.text("tools/reading/index.txt")?, &list, sum),
        _ => Err(USAGE.into()),
    }
}

fn main() -> ExitCode {
    let arguments: Vec<String> = env::args().skip(1).collect();
    match written(&arguments.iter().map(String::as_str).collect::<Vec<_>>()) {
        Ok(text) => {
            print!("{text}");
            ExitCode::SUCCESS
        }
        Err(error) => {
            eprintln!("lomvuze-reading: {error}");
            ExitCode::FAILURE
        }
    }
}
