//! Writes a crate of closed equations: on each left the proved library's definitions applied to numbers, on each right what
//! the reference computes from the same numbers. The prover then checks every equation by computation.
//!
//! Usage: lomvuze-agreement FOLDER

mod blocks;
mod calls;
mod claims;
mod codes;
mod drawing;
mod draws;
mod inputs;
mod instance;
mod inverses;
mod text;

use std::{env, fs, io, path::Path};

fn main() -> io::Result<()> {
    let folder = env::args().nth(1).expect("usage: lomvuze-agreement FOLDER");
    let folder = Path::new(&folder);
    let [drawn_digests, draws] = draws::files();
    let files = [
        claims::values(),
        claims::weights(),
        claims::combinations(),
        claims::quotients(),
        codes::codewords(),
        codes::entries(),
        codes::digests(),
        blocks::counts(),
        calls::answers(),
        drawn_digests,
        draws,
        drawing::answers(),
    ];
    let mut names = write_common(folder)?;
    let mut total = 0;
    for file in &files {
        fs::write(folder.join(format!("specs/{}.antt", file.name)), file.text())?;
        println!("{}\t{}", file.name, file.equations.len());
        names.push(file.name);
        total += file.equations.len();
    }
    let modules: String = names.iter().map(|name| format!("pub mod {name}\n")).collect();
    fs::write(folder.join("specs/Lib.antt"), modules)?;
    println!("equations\t{total}");
    Ok(())
}

/// Writes the files that the equations rest on, and gives the names of those that are specifications.
fn write_common(folder: &Path) -> io::Result<Vec<&'static str>> {
    fs::create_dir_all(folder.join("src"))?;
    fs::create_dir_all(folder.join("specs"))?;
    fs::write(
        folder.join("src/lib.rt"),
        "// Equations between definitions and numbers, each checked by computation.\n#![tactic(auto)]\n",
    )?;
    fs::write(folder.join("specs/Elements.antt"), include_str!("../Elements.antt.in"))?;
    fs::write(folder.join("specs/Runs.antt"), include_str!("../Runs.antt.in"))?;
    fs::write(folder.join("specs/Inverses.antt"), inverses::inverses())?;
    fs::write(folder.join("specs/Points.antt"), codes::points())?;
    Ok(vec!["Elements", "Runs", "Inverses", "Points"])
}
