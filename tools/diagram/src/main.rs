//! Draws a picture of a repository as an SVG on standard output: `crates`, who stands on whom and what each promises in a few words, or `chain`, the
//! chain of calls, who holds what, and what goes between them.
//!
//! Usage: lomvuze-diagram crates|chain REPOSITORY

mod align;
mod bands;
mod calls;
mod chain;
mod chain_picture;
mod crates;
mod graph;
mod layout;
mod order;
mod picture;
mod svg;

use std::{env, path::Path, process::ExitCode};

fn drawn() -> Result<String, String> {
    let arguments: Vec<String> = env::args().skip(1).collect();
    match arguments.iter().map(String::as_str).collect::<Vec<_>>()[..] {
        ["crates", root] => picture::draw(&crates::read(Path::new(root))?),
        ["chain", root] => {
            let text = |name: &str| crates::text(&Path::new(root).join(name));
            let calls = calls::Calls::read(&text("rust/calls/calls.txt")?)?;
            let chain = chain::read(&text("docs/chain.txt")?, &calls)
                .map_err(|error| format!("docs/chain.txt: {error}"))?;
            chain_picture::draw(&chain)
        }
        _ => Err("usage: lomvuze-diagram crates|chain REPOSITORY".to_string()),
    }
}

fn main() -> ExitCode {
    match drawn() {
        Ok(picture) => {
            print!("{picture}");
            ExitCode::SUCCESS
        }
        Err(error) => {
            eprintln!("lomvuze-diagram: {error}");
            ExitCode::FAILURE
        }
    }
}
