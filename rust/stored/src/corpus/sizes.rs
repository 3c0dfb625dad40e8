//! The seeds of check 2: a buffer that is longer, one that is shorter, and sizes.

use super::{folder, input};
use lomvuze_trials::{put, Call};
use std::path::PathBuf;

/// Calls that one size or one length tells from a call that is accepted.
pub(super) fn stored(call: &Call) -> Vec<(PathBuf, Vec<u8>)> {
    let mut files = vec![];
    let mut add = |what: &str, content| files.push((folder(call.name).join(what), content));
    let mut longer = call.clone();
    longer.inputs[call.name.takes_points() as usize].push(0);
    add("2-longer", input(&longer));
    let mut shorter = call.clone();
    shorter.inputs.iter_mut().chain(&mut shorter.outputs).last().unwrap().pop();
    add("2-shorter", input(&shorter));
    // A size of 2^30 more gives the same lengths modulo 2^32.
    for size in call.name.sizes() {
        let mut content = input(call);
        put(&mut content, 4 * call.place_of(size).unwrap(), call.number(size) as u32 + (1 << 30));
        add(&format!("2-{size}"), content);
    }
    files
}
