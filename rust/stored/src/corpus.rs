//! The seeds of the fuzz targets: calls and sheets, honest and damaged, in the format that `fuzz/target.h`
//! describes.

mod drawing;
mod openings;
mod sizes;

use lomvuze_reference::field::{Element, P};
use lomvuze_reference::{code, sheet};
use lomvuze_trials::answer::verdict;
use lomvuze_trials::sheet::{accepted, of_length, Buffers, Shape, GREATEST};
use lomvuze_trials::{bytes, number_at, points, put, Call, Honest, Name, Part, Random, NAMES, REFERENCE};
use std::path::{Path, PathBuf};

/// Writes each file to its folder, which is made where it is missing.
pub fn write(folder: &Path, files: Vec<(PathBuf, Vec<u8>)>) -> std::io::Result<()> {
    for (name, content) in files {
        let path = folder.join(name);
        std::fs::create_dir_all(path.parent().unwrap())?;
        std::fs::write(path, content)?;
    }
    Ok(())
}

/// The files of `fuzz/corpus`. A name starts with the verdict: each call has one file at least for each of its
/// verdicts.
pub fn stored() -> Vec<(PathBuf, Vec<u8>)> {
    calls().flat_map(stored_calls).chain(stored_sheets()).collect()
}

/// The calls but the reader of sheets, whose inputs have a format of their own.
fn calls() -> impl Iterator<Item = Name> {
    NAMES.into_iter().filter(|name| *name != Name::ReadSheet)
}

fn stored_calls(name: Name) -> Vec<(PathBuf, Vec<u8>)> {
    let mut random = random_of(&folder(name));
    let mut files = vec![];
    let mut add = |what: &str, content| files.push((folder(name).join(what), content));
    let greatest = Honest::with_entries(&mut random, 6, 64, 64, 8, [16, 16, 80]);
    add("0-greatest", input(&Call::over(&mut random, name, greatest, 2)));

    let small = Honest::with_entries(&mut random, 1, 2, 4, 2, [3, 3, 3]);
    let call = Call::over(&mut random, name, small, 2);
    add("0-small", input(&call));
    for check in name.checks().iter().filter(|check| **check != 2) {
        let mut call = call.clone();
        call.fail(&mut random, *check);
        add(&check.to_string(), seed(&check.to_string(), &call).1);
    }

    files.extend(sizes::stored(&call));
    if name.takes_points() {
        files.extend(stored_points(&mut random, name));
    }
    if name.runs(13) {
        files.extend(stored_first_inputs(&mut random, name));
    }
    if name == Name::Verify {
        files.extend(openings::stored(&mut random));
    }
    files.extend(drawing::stored(&mut random, name));
    files
}

/// Calls with a first input other than 1: of the first of three items and of the last, where a call takes several; for
/// verifying, of the new item.
fn stored_first_inputs(random: &mut Random, name: Name) -> Vec<(PathBuf, Vec<u8>)> {
    let list = Honest::with_entries(random, 1, 2, 4, 3, [3, 3, 3]);
    let call = Call::over(random, name, list, 2);
    let mut files = vec![];
    let mut add = |what: &str, i: usize, at: usize, number: u32| {
        let mut call = call.clone();
        put(&mut call.inputs[i], at, number);
        files.push(seed(what, &call));
    };
    if let Some(items) = call.input_of(Part::Items) {
        let places = call.first_inputs_of(items);
        add("13-first", items, places[0], 0);
        add("13-last", items, places[2], P - 1);
    }
    if name == Name::Verify {
        let new = call.input_of(Part::OneItem).unwrap();
        add("7-new-input", new, call.first_inputs_of(new)[0], 2);
    }
    files
}

/// A call as a file, whose name starts with its verdict.
fn seed(what: &str, call: &Call) -> (PathBuf, Vec<u8>) {
    let verdict = verdict(call.clone().run(&REFERENCE));
    assert_eq!(what.split('-').next(), Some(&verdict.to_string()[..]));
    (folder(call.name).join(what), input(call))
}

/// Calls that are lent points: random ones at the greatest sizes and at small ones, and the built-in ones; with points
/// that repeat another or are p or more, and of other lengths.
fn stored_points(random: &mut Random, name: Name) -> Vec<(PathBuf, Vec<u8>)> {
    let mut files = vec![];
    let mut add = |what: &str, call: &Call| files.push(seed(what, call));
    let list = Honest::with_entries(random, 6, 64, 64, 8, [16, 16, 80]).lent(points::different(random, 64));
    add("0-greatest-lent", &Call::over(random, name, list, 2));
    let list = Honest::with_entries(random, 1, 2, 4, 2, [3, 3, 3]);
    let lent = list.clone().lent(points::different(random, 4));
    let call = Call::over(random, name, lent, 2);
    add("0-lent", &call);
    add("0-built-in", &Call::over(random, name, list.lent(points::built_in(4)), 2));

    let first = number_at(&call.inputs[0], 0);
    for (what, at, number) in [("12-last", 60, first), ("12-next", 4, first), ("12-p", 60, P)] {
        let mut call = call.clone();
        put(&mut call.inputs[0], at, number);
        add(what, &call);
    }
    for (what, length) in [("2-points-longer", 65), ("2-points-shorter", 63), ("2-points-of-2", 32)] {
        let mut call = call.clone();
        call.inputs[0].resize(length, 0);
        add(what, &call);
    }
    files
}

fn stored_sheets() -> Vec<(PathBuf, Vec<u8>)> {
    let mut random = random_of(Path::new(SHEETS));
    let mut files = vec![];
    let mut add = |what: &str, more: [isize; 5], text: &[u8]| {
        let lengths = std::array::from_fn(|i| Buffers::LENGTHS[i].wrapping_add_signed(more[i]));
        let answer = Buffers::new(lengths).read(sheet::read, text).answer;
        assert_eq!(what.split('-').next(), Some(&answer.to_string()[..]));
        files.push((PathBuf::from(SHEETS).join(what), sheet_input(more, text)));
    };
    let greatest = Shape { entries: [16, 32, 80], pairs: 2, ..GREATEST };
    add("0-greatest", [0; 5], &matching(&mut random, &greatest));
    let small = matching(&mut random, &Shape { m: 1, n: 2, k: 4, entries: [2, 3, 4], pairs: 2 });
    add("0-small", [0; 5], &small);
    add("0-without-last-newline", [0; 5], small.strip_suffix(b"\n").unwrap());
    for (what, text) in EXAMPLES {
        add(what, [0; 5], text);
    }
    // The sheet for 13 has another first input in its last item.
    let first = str::from_utf8(EXAMPLES[0].1).unwrap().replacen("\t1\t6\t", "\t2\t6\t", 1);
    add("13-first", [0; 5], first.as_bytes());
    add("1-longer", [1, 0, 0, 0, 0], &small[1..]);
    add("2-longer", [1, 0, 0, 0, 0], &small);
    add("2-shorter", [0, 0, 0, 0, -1], &small);
    files
}

/// The sheets of `examples/sheets`.
const EXAMPLES: [(&str, &[u8]); 7] = [
    ("0-printed", include_bytes!("../../../examples/sheets/printed.sheet")),
    ("0-case-8", include_bytes!("../../../examples/sheets/case-8.sheet")),
    ("1", include_bytes!("../../../examples/sheets/refused-1.sheet")),
    ("2", include_bytes!("../../../examples/sheets/refused-2.sheet")),
    ("3", include_bytes!("../../../examples/sheets/refused-3.sheet")),
    ("4", include_bytes!("../../../examples/sheets/refused-4.sheet")),
    ("13", include_bytes!("../../../examples/sheets/refused-13.sheet")),
];

/// So many honest calls of each name, of any size, and one of the greatest; and as many sheets.
pub fn honest(count: usize) -> Vec<(PathBuf, Vec<u8>)> {
    let mut random = Random::new(2);
    let mut files = vec![];
    for name in calls() {
        let greatest = Honest::greatest(&mut random);
        let lent = greatest.clone().lent(points::different(&mut random, 64));
        for (what, list) in [("greatest", greatest), ("greatest-lent", lent)] {
            files.push((folder(name).join(what), input(&Call::over(&mut random, name, list, 256))));
        }
        for i in 0..count {
            let list = Honest::of_any_size(&mut random);
            let t = 1 + random.below(4 * list.k as usize);
            files.push((folder(name).join(i.to_string()), input(&Call::over(&mut random, name, list, t))));
        }
    }
    let mut add = |what: &str, text: &[u8]| {
        files.push((PathBuf::from(SHEETS).join(what), sheet_input([0; 5], text)));
    };
    add("greatest", &sheet::write(&of_length(&mut random, &GREATEST, sheet::MOST_BYTES)));
    for i in 0..count {
        let shape = Shape::any(&mut random);
        add(&i.to_string(), &matching(&mut random, &shape));
    }
    files
}

fn folder(name: Name) -> PathBuf {
    name.exported().into()
}

/// Random numbers for one folder, which stay as they are when another folder is added.
fn random_of(folder: &Path) -> Random {
    let letters = folder.as_os_str().as_encoded_bytes();
    Random::new(letters.iter().fold(0, |seed: u64, letter| seed.wrapping_mul(31) + *letter as u64))
}

const SHEETS: &str = "read_sheet";

/// A sheet of this shape whose roots are those of its witnesses. About half of its items hold.
fn matching(random: &mut Random, shape: &Shape) -> Vec<u8> {
    let mut sheet = accepted(random, shape);
    for pair in &mut sheet.pairs {
        let w: Vec<Element> = pair.witness.iter().map(|number| Element::new(*number).unwrap()).collect();
        pair.root = code::root(&code::built_in_points(w.len()), &w);
    }
    sheet::write(&sheet)
}

/// A sheet as an input: what is added to the lengths of the buffers, and the text.
fn sheet_input(more: [isize; 5], text: &[u8]) -> Vec<u8> {
    [&bytes(&more.map(|more| more as u32)), text].concat()
}

/// A call with permitted sizes as an input: its numbers, which points are lent, the lengths of its buffers beside
/// those that the sizes give, and the contents of those that it reads.
fn input(call: &Call) -> Vec<u8> {
    let which = which_points(call);
    let parts = call.name.parts().into_iter();
    let buffers = call.inputs.iter().chain(&call.outputs);
    let given = |part: Part| match part {
        Part::Points if which == Some(0) => 0,
        _ => call.length(part).unwrap_or(0) as u32,
    };
    let more: Vec<u32> =
        parts.zip(buffers).map(|(part, buffer)| (buffer.len() as u32).wrapping_sub(given(part))).collect();
    // The built-in points have no contents.
    let contents = call.inputs[(which == Some(1)) as usize..].concat();
    [bytes(&call.numbers), which.into_iter().collect(), bytes(&more), contents].concat()
}

/// For a call that takes points, 0 for none, 1 for the built-in ones and 2 for others.
fn which_points(call: &Call) -> Option<u8> {
    let lent = &call.inputs[call.input_of(Part::Points)?];
    Some(match lent.is_empty() {
        true => 0,
        false if *lent == points::built_in(call.number("k") as u32) => 1,
        false => 2,
    })
}
