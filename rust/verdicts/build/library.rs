//! The library of the calls is linked: `libverdicts.a` in the folder that LOMVUZE_STATICLIB names; else the one of the
//! checkout; else the installed one, which pkg-config finds. Of that the static library is taken where both kinds
//! are there, so that a program needs no search path when it runs.

use std::env;
use std::path::{Path, PathBuf};
use std::process::Command;

/// Tells cargo what to link.
pub fn link() -> Result<(), String> {
    for name in ["LOMVUZE_STATICLIB", "PKG_CONFIG", "PKG_CONFIG_PATH", "PKG_CONFIG_LIBDIR"] {
        println!("cargo:rerun-if-env-changed={name}");
    }
    if let Some(folder) = env::var_os("LOMVUZE_STATICLIB").filter(|name| !name.is_empty()).map(PathBuf::from)
    {
        if !folder.join("libverdicts.a").exists() {
            return Err(format!(
                "LOMVUZE_STATICLIB names {}, and libverdicts.a is not there",
                folder.display()
            ));
        }
        link_static(&folder, "verdicts");
        return Ok(());
    }

    let checkout = PathBuf::from(env::var_os("CARGO_MANIFEST_DIR").unwrap()).join("../..");
    let built = checkout.join("target/staticlib");
    if built.join("libverdicts.a").exists() {
        link_static(&built, "verdicts");
        return Ok(());
    }
    if checkout.join("include/lomvuze.h").exists() {
        // Asked for again once it is built.
        println!("cargo:rerun-if-changed={}", built.join("libverdicts.a").display());
    }
    link_installed().map_err(|why| {
        format!(
            "The Lomvuze library is not found. Any one of these helps:
- LOMVUZE_STATICLIB names, by its full path, the folder with libverdicts.a in it. It is not set.
- `make`, in a checkout, writes target/staticlib/libverdicts.a there. None is in {}
- `make install PREFIX=FOLDER` installs it, and PKG_CONFIG_PATH=FOLDER/lib/pkgconfig has pkg-config find it. It says:
{why}",
            checkout.canonicalize().unwrap_or(checkout).display()
        )
    })
}

fn link_static(folder: &Path, name: &str) {
    println!("cargo:rerun-if-changed={}", folder.join(format!("lib{name}.a")).display());
    println!("cargo:rustc-link-search=native={}", folder.display());
    println!("cargo:rustc-link-lib=static={name}");
}

/// Library and crate describe the same bytes to each other, so that their versions are the same.
fn link_installed() -> Result<(), String> {
    let version = format!("lomvuze = {}", env!("CARGO_PKG_VERSION"));
    let mut flags = words(&pkg_config(&["--libs", &version])?);
    // Folders that the linker searches anyway are not among the flags.
    flags.extend(
        words(&pkg_config(&["--variable=libdir", "lomvuze"])?).iter().map(|folder| format!("-L{folder}")),
    );
    let with = |letter| flags.iter().filter_map(move |flag| flag.strip_prefix(letter));
    for folder in with("-L") {
        println!("cargo:rustc-link-search=native={folder}");
    }
    for name in with("-l") {
        match with("-L").map(Path::new).find(|folder| folder.join(format!("lib{name}.a")).exists()) {
            Some(folder) => link_static(folder, name),
            None => println!("cargo:rustc-link-lib={name}"),
        }
    }
    Ok(())
}

/// What pkg-config prints, or why it prints nothing.
fn pkg_config(arguments: &[&str]) -> Result<String, String> {
    let program = PathBuf::from(env::var_os("PKG_CONFIG").unwrap_or_else(|| "pkg-config".into()));
    let run = Command::new(&program).arg("--print-errors").args(arguments).output();
    let run = run.map_err(|why| format!("{}: {why}", program.display()))?;
    if !run.status.success() {
        return Err(String::from_utf8_lossy(&run.stderr).trim_end().to_string());
    }
    String::from_utf8(run.stdout).map_err(|why| why.to_string())
}

/// The words of a line, as a shell reads them: a backslash keeps the character behind it, such as a space, and
/// quotes keep all between them.
fn words(line: &str) -> Vec<String> {
    let (mut words, mut word, mut quote) = (vec![], None, None);
    let mut letters = line.trim_end().chars();
    while let Some(letter) = letters.next() {
        if quote.is_none() && letter.is_whitespace() {
            words.extend(word.take());
            continue;
        }
        let word: &mut String = word.get_or_insert_default();
        match letter {
            '\\' if quote != Some('\'') => word.extend(letters.next()),
            '"' | '\'' if quote.is_none() => quote = Some(letter),
            _ if quote == Some(letter) => quote = None,
            _ => word.push(letter),
        }
    }
    words.extend(word);
    words
}
