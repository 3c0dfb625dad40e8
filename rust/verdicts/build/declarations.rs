//! The calls as Rust declares them: each as it is exported, and a safe function for it.

use lomvuze_calls::description::{Buffer, Call, Description, Formula, Length};

/// The declarations of all calls, and their safe functions.
pub fn of(calls: &Description) -> String {
    let exported: String = calls.calls.iter().map(|call| exported(calls, call)).collect();
    let safe: Vec<String> = calls.calls.iter().map(|call| safe(calls, call)).collect();
    format!("mod exported {{\n    extern \"C\" {{\n{exported}    }}\n}}\n\n{}", safe.join("\n"))
}

/// A buffer as an argument.
enum Argument<'a> {
    Read(&'a str),
    Written(&'a str),
    /// An array of so many numbers, without a length.
    Array(&'a str, u64),
}

fn arguments<'a>(calls: &Description, call: &'a Call) -> Vec<Argument<'a>> {
    let written = |buffer: &'a Buffer| match &calls.part(buffer.part).expect("a part").length {
        Length::Numbers(Formula::Constant(count)) => Argument::Array(buffer.name, *count),
        _ => Argument::Written(buffer.name),
    };
    let read = call.inputs.iter().map(|buffer| Argument::Read(buffer.name));
    read.chain(call.outputs.iter().map(written)).collect()
}

/// `lomvuze_NAME`: a buffer is a pointer and a length.
fn exported(calls: &Description, call: &Call) -> String {
    let numbers = call.numbers.iter().map(|name| format!("{name}: u32"));
    let buffers = arguments(calls, call).into_iter().map(|argument| match argument {
        Argument::Read(name) => format!("{name}: *const u8, {name}_len: usize"),
        Argument::Written(name) => format!("{name}: *mut u8, {name}_len: usize"),
        Argument::Array(name, _) => format!("{name}: *mut u32"),
    });
    let all: Vec<String> = numbers.chain(buffers).collect();
    format!("        pub fn lomvuze_{}({}) -> u{};\n", call.name, all.join(", "), call.bits)
}

/// The safe function: a buffer is a slice.
fn safe(calls: &Description, call: &Call) -> String {
    let numbers = || call.numbers.iter();
    let taken = arguments(calls, call).into_iter().map(|argument| match argument {
        Argument::Read(name) => format!("{name}: &[u8]"),
        Argument::Written(name) => format!("{name}: &mut [u8]"),
        Argument::Array(name, count) => format!("{name}: &mut [u32; {count}]"),
    });
    let passed = arguments(calls, call).into_iter().map(|argument| match argument {
        Argument::Read(name) => format!("{name}.as_ptr(), {name}.len()"),
        Argument::Written(name) => format!("{name}.as_mut_ptr(), {name}.len()"),
        Argument::Array(name, _) => format!("{name}.as_mut_ptr()"),
    });
    let taken: Vec<String> = numbers().map(|name| format!("{name}: u32")).chain(taken).collect();
    let passed: Vec<String> = numbers().map(|name| name.to_string()).chain(passed).collect();
    let (name, bits) = (call.name, call.bits);
    format!(
        "/// {} {}\npub fn {name}({}) -> u{bits} {{
    // A call reads and writes inside its buffers alone, whatever they hold, and keeps no pointer.
    unsafe {{ exported::lomvuze_{name}({}) }}\n}}\n",
        call.about,
        call.checks_in_words(),
        taken.join(", "),
        passed.join(", ")
    )
}
