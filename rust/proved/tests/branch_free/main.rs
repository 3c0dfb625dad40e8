//! Sum, difference and opposite of the field do not branch on the numbers: neither in the source nor in the
//! machine code of the proved library.

mod machine;
mod source;

use machine::{conditional_jumps, disassemble, jumps_on, parse, ARGUMENTS};
use source::faults;

const HARNESS: &str = env!("LOMVUZE_HARNESS");

fn field() -> String {
    let path = concat!(env!("CARGO_MANIFEST_DIR"), "/../../crates/field/src/lib.rt");
    std::fs::read_to_string(path).unwrap()
}

#[test]
fn source_has_no_branch() {
    for function in ["add", "sub", "neg"] {
        assert_eq!(faults(&field(), function), [""; 0]);
    }
}

/// The control: each form is found in a copy of the source that has it.
#[test]
fn branches_are_found_in_copies() {
    let last = "    sum - over * P\n";
    let copies = [
        (last, "    if over == 1 { sum - P } else { sum }\n", "reduce: if, reduce: else"),
        (last, "    match over {\n        0 => sum,\n        _ => sum - P,\n    }\n", "reduce: match"),
        (last, "    sum - ((over == 1) && (P <= sum)) as u32 * P\n", "reduce: &&"),
        (last, "    sum - ((over == 1)||(P <= sum)) as u32 * P\n", "reduce: ||"),
        (last, "    let mut r = sum;\n    while P <= r {\n        r -= P;\n    }\n    r\n", "reduce: while"),
        (last, "    loop {\n        return sum - over * P;\n    }\n", "reduce: loop"),
        (last, "    for _ in 0..over { return sum - P; }\n    sum\n", "reduce: for"),
        (last, "    sum%P\n", "reduce: %"),
        (last, "    off(sum)\n}\n\nfn off(sum: u32) -> u32 {\n    sum % P\n", "off: %"),
        (
            last,
            "    std::num::wrapping_sub_u32(sum, over * P)\n",
            "std::num::wrapping_sub_u32: not in this file",
        ),
        ("    reduce(a + b)\n", "    if a == 0 { b } else { reduce(a + b) }\n", "add: if, add: else"),
    ];
    for (old, new, expected) in copies {
        assert!(field().contains(old), "nothing to replace: {old}");
        let copy = field().replace(old, new);
        assert_eq!(faults(&copy, "add").join(", "), expected);
        let shared = old == last;
        for other in ["sub", "neg"] {
            assert_eq!(faults(&copy, other).join(", "), if shared { expected } else { "" });
        }
    }
}

#[test]
fn machine_code_has_no_conditional_jump() {
    for function in ["lomvuze_test_add", "lomvuze_test_sub", "lomvuze_test_neg"] {
        let code = disassemble(HARNESS, function);
        assert_eq!(conditional_jumps(&code), [""; 0], "{function}");
        // This also looks at every instruction, and fails at a call.
        assert_eq!(jumps_on(&code, &ARGUMENTS), [""; 0], "{function}");
    }
}

/// x and y are added; n says how often. The control: as jumps on n, all of them are found.
#[test]
fn chain_of_sums_jumps_for_its_loop_alone() {
    let code = disassemble(HARNESS, "lomvuze_test_chain_add");
    let [x, y, n] = ARGUMENTS;
    assert_eq!(jumps_on(&code, &[x, y]), [""; 0]);
    let jumps = jumps_on(&code, &[n]);
    assert!(!jumps.is_empty());
    assert_eq!(jumps, conditional_jumps(&code));
}

/// The control: the same chain with a jump over the subtraction, as a compiler could write it too.
#[test]
fn a_jump_on_a_sum_is_found() {
    let chain = "
   0:	mov    eax,edi
   2:	add    eax,esi
   4:	mov    r8d,eax
   7:	sub    r8d,0x78000001
   e:	jb     13 <chain+0x13>
  10:	mov    eax,r8d
  13:	dec    edx
  15:	jne    2 <chain+0x2>
  17:	ret
";
    let code = parse(chain.trim_start_matches('\n'));
    let [x, y, n] = ARGUMENTS;
    for data in [[x], [y]] {
        assert_eq!(jumps_on(&code, &data), ["e: jb 13"]);
    }
    assert_eq!(jumps_on(&code, &[n]), ["15: jne 2"]);
}
