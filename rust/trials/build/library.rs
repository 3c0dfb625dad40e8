//! The calls of a library: by their names, with arguments of the same types for all, and each with its own.

use crate::names::variant;
use lomvuze_calls::description::{Buffer, Call, Description, Formula, Length};

/// How many numbers an array has that is passed without a length.
fn array(calls: &Description, buffer: &Buffer) -> Option<u64> {
    match &calls.part(buffer.part).expect("a part").length {
        Length::Numbers(Formula::Constant(count)) => Some(*count),
        _ => None,
    }
}

fn names<'a>(buffers: &'a [Buffer]) -> Vec<&'a str> {
    buffers.iter().map(|buffer| buffer.name).collect()
}

/// A method of `Library` for each call, with the arguments that the call has.
pub fn typed(calls: &Description) -> String {
    let methods: String = calls.calls.iter().map(|call| method(calls, call)).collect();
    format!(
        "#[allow(clippy::too_many_arguments, clippy::unnecessary_cast)]\nimpl Library {{\n{methods}}}\n\n"
    )
}

fn method(calls: &Description, call: &Call) -> String {
    let written = |buffer: &Buffer| match array(calls, buffer) {
        Some(count) => format!("{}: &mut [u32; {count}]", buffer.name),
        None => format!("{}: &mut [u8]", buffer.name),
    };
    let arguments: Vec<String> = [String::from("&self")]
        .into_iter()
        .chain(call.numbers.iter().map(|name| format!("{name}: u32")))
        .chain(call.inputs.iter().map(|buffer| format!("{}: &[u8]", buffer.name)))
        .chain(call.outputs.iter().map(written))
        .collect();
    let arrays = || call.outputs.iter().filter(|buffer| array(calls, buffer).is_some());
    let before: String =
        arrays().map(|b| format!("let mut {0}_bytes = array_bytes({0}); ", b.name)).collect();
    let behind: String = arrays().map(|b| format!("put_array({0}, &{0}_bytes); ", b.name)).collect();
    let outputs: Vec<String> = call
        .outputs
        .iter()
        .map(|buffer| match array(calls, buffer) {
            Some(_) => format!("&mut {}_bytes[..]", buffer.name),
            None => buffer.name.to_string(),
        })
        .collect();
    format!(
        "    /// {} {}\n    pub fn {}({}) -> u{bits} {{ {before}\
         let answer = (self.call)(Name::{}, &[{}], &[{}], &mut [{}]); {behind}answer as u{bits} }}\n",
        call.about,
        call.checks_in_words(),
        call.name,
        arguments.join(", "),
        variant(call.name),
        call.numbers.join(", "),
        names(&call.inputs).join(", "),
        outputs.join(", "),
        bits = call.bits,
    )
}

/// The macro `library!`: the library of a module that has a function for each call.
pub fn of_module(calls: &Description) -> String {
    let arms: String = calls.calls.iter().map(|call| arm(calls, call)).collect();
    format!(
        "/// The library of a module that has a function for each call.\n#[macro_export]\nmacro_rules! library {{
    ($calls:ident) => {{ $crate::Library {{ call: |name, numbers, inputs, outputs| match name {{
{arms}    }} }} }};\n}}\n\n"
    )
}

/// A function of its own for each call: the stack that one takes does not depend on the others.
fn arm(calls: &Description, call: &Call) -> String {
    let numbers: Vec<String> = call.numbers.iter().map(|name| format!("*{name}")).collect();
    let arrays = || call.outputs.iter().filter_map(|buffer| Some((buffer.name, array(calls, buffer)?)));
    let before: String = arrays()
        .map(|(name, count)| format!("let mut {name}_array = $crate::library::array::<{count}>({name}); "))
        .collect();
    let behind: String = arrays()
        .map(|(name, _)| format!("{name}.copy_from_slice(&$crate::library::array_bytes(&{name}_array)); "))
        .collect();
    let outputs = call.outputs.iter().map(|buffer| match array(calls, buffer) {
        Some(_) => format!("&mut {}_array", buffer.name),
        None => buffer.name.to_string(),
    });
    let arguments: Vec<String> =
        numbers.into_iter().chain(names(&call.inputs).into_iter().map(String::from)).chain(outputs).collect();
    format!(
        "        $crate::Name::{variant} => {{
            #[inline(never)]
            fn run(numbers: &[u32], inputs: &[&[u8]], outputs: &mut [&mut [u8]]) -> u64 {{
                let ([{numbers}], [{inputs}], [{outputs}]) = (numbers, inputs, outputs) else {{
                    panic!(\"{name} takes other counts of numbers and buffers\")
                }};
                {before}let answer = $calls::{name}({arguments}); {behind}u64::from(answer)
            }}
            run(numbers, inputs, outputs)
        }}\n",
        variant = variant(call.name),
        numbers = call.numbers.join(", "),
        inputs = names(&call.inputs).join(", "),
        outputs = names(&call.outputs).join(", "),
        name = call.name,
        arguments = arguments.join(", "),
    )
}

/// The macro `test_each_call!`: a test for each call, which is named for it and runs a function of its `Name`.
pub fn tests(calls: &Description) -> String {
    let test = |call: &Call| {
        format!("        #[test] fn {}() {{ $run($crate::Name::{}); }}\n", call.name, variant(call.name))
    };
    let tests: String = calls.calls.iter().map(test).collect();
    format!(
        "/// A test for each call, which is named for it and runs a function of its [`Name`].\n#[macro_export]
macro_rules! test_each_call {{\n    ($run:path) => {{\n{tests}    }};\n}}\n\n"
    )
}
