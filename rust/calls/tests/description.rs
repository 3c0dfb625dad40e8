//! The reader of the description: the file itself, by hand, and files that are refused in words, with their line.

use lomvuze_calls::description::{Description, Length};
use lomvuze_calls::CALLS;

fn calls() -> Description<'static> {
    Description::read(CALLS).unwrap()
}

#[test]
fn the_calls() {
    let names: Vec<&str> = calls().calls.iter().map(|call| call.name).collect();
    assert_eq!((names.first(), names.last()), (Some(&"encode"), Some(&"read_sheet")));
    assert!(names.contains(&"verify"));
    assert!(calls().calls.iter().all(|call| (call.bits == 64) == (call.name == "verify")));
}

#[test]
fn verify_by_hand() {
    let all = calls();
    let verify = all.call("verify").unwrap();
    assert_eq!(verify.numbers, ["m", "n", "k", "l", "t", "challenge"]);
    assert!(verify.inputs.iter().map(|buffer| buffer.name).eq([
        "items",
        "positions",
        "quotient",
        "new_item",
        "openings"
    ]));
    assert_eq!(verify.outputs, []);
    assert_eq!(verify.checks, [2, 3, 13, 5, 6, 7, 8, 9]);
    assert_eq!(verify.checks_in_words(), "Checks 2, 3, 13, 5, 6, 7, 8 and 9.");
    assert_eq!(all.call("interleave").unwrap().checks_in_words(), "Check 2.");
    // m = 1, n = 2, k = 4, l = 3 and t = 5: items of 48 bytes, openings of 132.
    let number = |name: &str| match name {
        "m" => 1,
        "n" => 2,
        "k" => 4,
        "l" => 3,
        "t" => 5,
        _ => unreachable!(),
    };
    let lengths = verify.inputs.iter().map(|buffer| all.part(buffer.part).unwrap().length.bytes(&number));
    assert!(lengths.map(Option::unwrap).eq([3 * 48, 20, 4 * 2 * 2, 48, 5 * 4 * 132]));
}

/// Lengths for numbers that are not permitted: no difference is below 0, and none is too large to be said.
#[test]
fn lengths_of_any_numbers() {
    let all = calls();
    let bytes = |part: &str, number: u32| all.part(part).unwrap().length.bytes(&|_| number);
    assert_eq!([bytes("quotient", 0), bytes("openings", 0), bytes("points", 0)], [Some(0); 3]);
    assert_eq!(bytes("openings_by_witness", u32::MAX), Some(usize::MAX));
    assert_eq!(bytes("witness", u32::MAX), Some(4 * (u32::MAX as usize)));
    assert_eq!([bytes("entries", 1), bytes("sheet", 1)], [None; 2]);
    assert_eq!(bytes("sheet_sizes", 1), Some(28));
    assert!(!all.part("sheet_sizes").unwrap().length.is_passed());
    assert!(matches!(all.part("points").unwrap().length, Length::NoneOr(_)));
}

#[test]
fn limits() {
    let all = calls();
    let limits = |name: &str, other: u32| {
        let number = all.number(name).unwrap();
        (number.limits(&|_| other), number.powers_of_two)
    };
    assert_eq!(
        [limits("m", 9), limits("n", 9), limits("k", 9)],
        [((0, 6), false), ((1, 64), false), ((2, 64), true)]
    );
    assert_eq!([limits("l", 9), limits("t", 16)], [((1, 8), false), ((1, 64), false)]);
    assert_eq!(limits("challenge", 3), ((3, 2013265920), false));
}

/// The file with another text in the place of one: the line that is refused, and what is said of it.
#[test]
fn refused() {
    let changes = [
        ("number m = 0 to 6", "number m = 0 6", "LEAST to GREATEST"),
        ("number n = 1 to 64", "number m = 1 to 64", "`m` is there twice"),
        ("layout item = e 4,", "layout item = e,", "FIELD BYTES"),
        ("part seed = digest", "part seed = digset", "`digset` is no name"),
        ("part seed = digest", "part seed digest", "NAME ="),
        ("part r = 4*m", "part r = 4*(m", "not closed"),
        ("part r = 4*m", "part r = 4*m m", "`m` behind a formula"),
        ("part r = 4*m", "part r = 4*", "missing in a formula"),
        ("part r = 4*m", "part r = 4x*m", "`4x` is no number"),
        ("part x = 4*n", "part r = 4*n", "`r` is there twice"),
        ("part x = 4*n", "parts x = 4*n", "none of number, layout, part and call"),
        ("call encode -> 32", "call encode", "NAME -> BITS"),
        ("call encode -> 32", "call encode -> 16", "32 or 64 bits"),
        ("call cast -> 32", "call encode -> 32", "`encode` is there twice"),
        ("  takes k\n", "  takes q\n", "the number `q`"),
        ("  takes k\n", "  takes k\n  takes k\n", "two lines takes"),
        ("  takes k\n", "takes k\n", "none of number, layout, part and call"),
        ("points: points, w: witness\n", "points: points, w witness\n", "BUFFER: PART"),
        ("points: points, w: witness\n", "points: points, w: wit\n", "the part `wit`"),
        ("points: points, w: witness\n", "points: points, points: witness\n", "`points` is there twice"),
        ("  checks 2 3 12\n", "  checks 2 3 b\n", "`b` is no check"),
        ("  checks 2 3 12\n", "  checks\n", "nothing stands behind checks"),
    ];
    for (from, to, what) in changes {
        let at = CALLS.find(from).unwrap_or_else(|| panic!("no {from:?}"));
        let text = CALLS.replacen(from, to, 1);
        let error = Description::read(&text).unwrap_err();
        let line = 1 + CALLS[..at].matches('\n').count() + to.matches('\n').count().saturating_sub(1);
        assert_eq!(error.line, line, "{error}");
        assert!(error.to_string().contains(what), "{error}");
    }
}

/// What is missing in a call is said where the next one begins, or at the end.
#[test]
fn calls_that_lack_something() {
    let without_checks = CALLS.replacen("  checks 2 3 12\n", "", 1);
    assert!(Description::read(&without_checks).unwrap_err().what.contains("`encode` has no line"));
    let without_k = CALLS.replacen("  takes k t\n", "  takes t\n", 1);
    let what = Description::read(&without_k).unwrap_err().what;
    assert_eq!(what, "`open` does not take k, which gives points its length");
    let (front, _) = CALLS.split_once("call encode").unwrap();
    assert!(Description::read(front).unwrap_err().what.contains("no call"));
    let (_, behind) = CALLS.split_once("call encode -> 32\n").unwrap();
    assert!(Description::read(behind).unwrap_err().what.contains("before the first call"));
}
