//! The names of calls and parts, as variants.

use lomvuze_calls::description::{Buffer, Description};

/// `draw_r` as `DrawR`.
pub fn variant(name: &str) -> String {
    let capital = |word: &str| word[..1].to_uppercase() + &word[1..];
    name.split('_').map(capital).collect()
}

/// The enumerations `Name` and `Part`, and the parts of each call.
pub fn of(calls: &Description) -> String {
    let names: Vec<String> = calls.calls.iter().map(|call| variant(call.name)).collect();
    let parts: Vec<String> = calls.parts.iter().map(|part| variant(part.name)).collect();
    let derive = "#[derive(Clone, Copy, PartialEq, Eq, PartialOrd, Ord, Hash, Debug)]";
    let inputs = arms(calls.calls.iter().map(|call| (call.name, &call.inputs)));
    let outputs = arms(calls.calls.iter().map(|call| (call.name, &call.outputs)));
    format!(
        "/// A call.\n{derive}\npub enum Name {{ {names} }}\n
/// All calls, in order.\npub const NAMES: [Name; {count}] = [{all}];\n
/// No call reads or writes more buffers.\npub const MOST_BUFFERS: usize = {most};\n
/// What a buffer holds.\n{derive}\npub enum Part {{ {parts} }}\n
impl Name {{
    /// The buffers that the call reads.\n    pub fn inputs(self) -> &'static [Part] {{ match self {{ {inputs} }} }}
    /// The buffers that the call writes.\n    pub fn outputs(self) -> &'static [Part] {{ match self {{ {outputs} }} }}
}}\n\n",
        names = names.join(", "),
        count = names.len(),
        most = calls.calls.iter().map(|call| call.inputs.len().max(call.outputs.len())).max().unwrap_or(0),
        all = names.iter().map(|name| format!("Name::{name}")).collect::<Vec<_>>().join(", "),
        parts = parts.join(", "),
    )
}

fn arms<'a>(calls: impl Iterator<Item = (&'a str, &'a Vec<Buffer<'a>>)>) -> String {
    let arm = |(name, buffers): (&str, &Vec<Buffer>)| {
        let parts: Vec<String> =
            buffers.iter().map(|buffer| format!("Part::{}", variant(buffer.part))).collect();
        format!("Name::{} => &[{}], ", variant(name), parts.join(", "))
    };
    calls.map(arm).collect()
}
