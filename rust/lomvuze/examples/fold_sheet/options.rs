//! The arguments of the program.

use lomvuze::Digest;
use std::ffi::OsString;

/// What the arguments ask for.
pub enum Asked {
    Help,
    Run(Options),
}

#[derive(Default)]
pub struct Options {
    pub sheet: OsString,
    pub expected: Option<OsString>,
    pub expected_count: Option<usize>,
    pub circuit_digest: Option<Digest>,
    pub circuit_file: Option<OsString>,
}

pub fn read(arguments: impl Iterator<Item = OsString>) -> Result<Asked, String> {
    let (mut options, mut sheet, mut arguments) = (Options::default(), None, arguments);
    while let Some(argument) = arguments.next() {
        let name = argument.to_string_lossy().into_owned();
        let mut value = || arguments.next().ok_or(format!("{name} has nothing behind it"));
        match name.as_str() {
            "--help" | "-h" => return Ok(Asked::Help),
            "--expected" => once(&name, &mut options.expected, value()?)?,
            "--expected-count" => once(&name, &mut options.expected_count, count(&value()?)?)?,
            "--circuit-digest" => once(&name, &mut options.circuit_digest, digest(&value()?)?)?,
            "--circuit-file" => once(&name, &mut options.circuit_file, value()?)?,
            _ if name.starts_with('-') => return Err(format!("there is no option {name}")),
            _ => once("SHEET", &mut sheet, argument)?,
        }
    }
    options.sheet = sheet.ok_or("no SHEET is named")?;
    Ok(Asked::Run(options))
}

fn once<T>(name: &str, place: &mut Option<T>, value: T) -> Result<(), String> {
    match place.replace(value) {
        None => Ok(()),
        Some(_) => Err(format!("{name} is given twice")),
    }
}

fn count(text: &OsString) -> Result<usize, String> {
    let text = text.to_string_lossy();
    text.parse().map_err(|_| format!("--expected-count takes a number, and '{text}' is none"))
}

fn digest(text: &OsString) -> Result<Digest, String> {
    let text = text.to_string_lossy();
    let nibbles: Option<Vec<u32>> = text.chars().map(|digit| digit.to_digit(16)).collect();
    match nibbles {
        Some(nibbles) if nibbles.len() == 64 => {
            Ok(std::array::from_fn(|i| (16 * nibbles[2 * i] + nibbles[2 * i + 1]) as u8))
        }
        _ => Err(format!("--circuit-digest takes 64 hexadecimal digits, and '{text}' is not that")),
    }
}
