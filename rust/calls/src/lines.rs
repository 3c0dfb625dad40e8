//! The lines of a description.

use crate::description::{Buffer, Call, Description, Error, Layout, Length, Number, Part};
use crate::formula::Formula;
use alloc::format;
use alloc::string::String;
use alloc::vec::Vec;

impl<'a> Description<'a> {
    /// Reads a description.
    pub fn read(text: &'a str) -> Result<Description<'a>, Error> {
        let mut read = Description::default();
        for (i, line) in text.lines().enumerate() {
            read.line(line).map_err(|what| Error { line: i + 1, what })?;
        }
        let last = text.lines().count();
        read.end_call().map_err(|what| Error { line: last, what })?;
        match read.calls.is_empty() {
            true => Err(Error { line: last, what: "there is no call".into() }),
            false => Ok(read),
        }
    }

    fn line(&mut self, line: &'a str) -> Result<(), String> {
        let text = line.trim();
        if text.is_empty() || text.starts_with('#') {
            return Ok(());
        }
        let (keyword, rest) = text.split_once(' ').unwrap_or((text, ""));
        match (keyword, line.starts_with(' ')) {
            ("number", false) => self.number_line(rest),
            ("layout", false) => self.layout_line(rest),
            ("part", false) => self.part_line(rest),
            ("call", false) => self.call_line(rest),
            ("about" | "takes" | "reads" | "writes" | "checks", true) => self.line_of_call(keyword, rest),
            _ => Err(format!(
                "`{text}` is none of number, layout, part and call, nor an indented line of a call"
            )),
        }
    }

    // ---- Numbers, layouts and parts

    fn number_line(&mut self, rest: &'a str) -> Result<(), String> {
        let (name, limits) = named(rest)?;
        let (limits, powers_of_two) = match limits.strip_suffix(", powers of two") {
            Some(limits) => (limits, true),
            None => (limits, false),
        };
        let (least, greatest) = limits.split_once(" to ").ok_or("the limits are not LEAST to GREATEST")?;
        let (least, greatest) = (self.formula(least)?, self.formula(greatest)?);
        once(name, self.numbers.iter().map(|number| number.name))?;
        self.numbers.push(Number { name, least, greatest, powers_of_two });
        Ok(())
    }

    fn layout_line(&mut self, rest: &'a str) -> Result<(), String> {
        let (name, list) = named(rest)?;
        let mut fields: Vec<(&str, Formula)> = Vec::new();
        for field in list.split(',') {
            let (name, bytes) = field.trim().split_once(' ').ok_or("a field is not FIELD BYTES")?;
            once(name, fields.iter().map(|field| field.0))?;
            fields.push((name, self.formula(bytes)?));
        }
        once(name, self.names())?;
        self.layouts.push(Layout { name, fields });
        Ok(())
    }

    fn part_line(&mut self, rest: &'a str) -> Result<(), String> {
        let (name, length) = named(rest)?;
        let length = if let Some(bytes) = length.strip_prefix("0 or ") {
            Length::NoneOr(self.formula(bytes)?)
        } else if let Some(rest) = length.strip_prefix("up to ") {
            let (count, bytes) = rest.split_once(" times ").ok_or("it is not up to COUNT times BYTES")?;
            Length::UpTo(self.formula(count)?, self.formula(bytes)?)
        } else if let Some(count) = length.strip_suffix(" numbers") {
            Length::Numbers(self.formula(count)?)
        } else {
            Length::Bytes(self.formula(length)?)
        };
        once(name, self.parts.iter().map(|part| part.name))?;
        self.parts.push(Part { name, length });
        Ok(())
    }

    fn names(&self) -> impl Iterator<Item = &'a str> + '_ {
        self.layouts.iter().map(|layout| layout.name).chain(self.parts.iter().map(|part| part.name))
    }

    /// Reads a formula over the names above it: numbers, depth, the lengths of layouts, and those of parts.
    fn formula(&self, text: &'a str) -> Result<Formula<'a>, String> {
        Formula::read(text, &|name| {
            if self.number(name).is_some() {
                return Some(Formula::Number(name));
            }
            if name == "depth" && self.number("k").is_some() {
                return Some(Formula::Depth);
            }
            if let Some(layout) = self.layout(name) {
                let fields = layout.fields.iter().map(|(_, bytes)| bytes.clone());
                return fields.reduce(|a, b| Formula::Sum(a.into(), b.into()));
            }
            match &self.part(name)?.length {
                Length::Bytes(bytes) => Some(bytes.clone()),
                _ => None,
            }
        })
    }

    // ---- Calls

    fn call_line(&mut self, rest: &'a str) -> Result<(), String> {
        self.end_call()?;
        let (name, bits) = rest.split_once(" -> ").ok_or("it is not call NAME -> BITS")?;
        once(name, self.calls.iter().map(|call| call.name))?;
        let bits = match bits {
            "32" => 32,
            "64" => 64,
            _ => return Err(format!("an answer has 32 or 64 bits, not {bits}")),
        };
        let (numbers, inputs, outputs, checks) = Default::default();
        self.calls.push(Call { name, bits, about: "", numbers, inputs, outputs, checks });
        Ok(())
    }

    fn line_of_call(&mut self, keyword: &str, rest: &'a str) -> Result<(), String> {
        if rest.trim().is_empty() {
            return Err(format!("nothing stands behind {keyword}"));
        }
        let buffers = match keyword {
            "reads" | "writes" => self.buffers(rest)?,
            _ => Vec::new(),
        };
        let numbers: Vec<&str> = self.numbers.iter().map(|number| number.name).collect();
        let call = self.calls.last_mut().ok_or("it stands before the first call")?;
        let repeated = match keyword {
            "about" => !core::mem::replace(&mut call.about, rest.trim()).is_empty(),
            "takes" => {
                let taken: Vec<&str> = rest.split_whitespace().collect();
                if let Some(name) = taken.iter().find(|name| !numbers.contains(name)) {
                    return Err(format!("no line above says what the number `{name}` is"));
                }
                !core::mem::replace(&mut call.numbers, taken).is_empty()
            }
            "reads" => !core::mem::replace(&mut call.inputs, buffers).is_empty(),
            "writes" => !core::mem::replace(&mut call.outputs, buffers).is_empty(),
            _ => {
                let number = |word: &str| word.parse().map_err(|_| format!("`{word}` is no check's number"));
                let checks: Vec<u32> = rest.split_whitespace().map(number).collect::<Result<_, _>>()?;
                !core::mem::replace(&mut call.checks, checks).is_empty()
            }
        };
        match repeated {
            true => Err(format!("`{}` has two lines {keyword}", call.name)),
            false => Ok(()),
        }
    }

    fn buffers(&self, rest: &'a str) -> Result<Vec<Buffer<'a>>, String> {
        let mut buffers: Vec<Buffer> = Vec::new();
        for buffer in rest.split(',') {
            let (name, part) = buffer.trim().split_once(": ").ok_or("a buffer is not BUFFER: PART")?;
            if self.part(part).is_none() {
                return Err(format!("no line above says what the part `{part}` is"));
            }
            once(name, buffers.iter().map(|buffer| buffer.name))?;
            buffers.push(Buffer { name, part });
        }
        Ok(buffers)
    }

    /// The last call has its lines, and takes every number that its lengths depend on.
    fn end_call(&self) -> Result<(), String> {
        let Some(call) = self.calls.last() else { return Ok(()) };
        if call.about.is_empty() || call.inputs.is_empty() || call.checks.is_empty() {
            return Err(format!("`{}` has no line about, reads or checks", call.name));
        }
        for buffer in call.inputs.iter().chain(&call.outputs) {
            let (Length::Bytes(bytes) | Length::NoneOr(bytes)) =
                &self.part(buffer.part).expect("a part").length
            else {
                continue;
            };
            if let Some(number) = bytes.numbers().into_iter().find(|number| !call.numbers.contains(number)) {
                return Err(format!(
                    "`{}` does not take {number}, which gives {} its length",
                    call.name, buffer.name
                ));
            }
        }
        Ok(())
    }
}

/// NAME = REST.
fn named(rest: &str) -> Result<(&str, &str), String> {
    let (name, rest) = rest.split_once(" = ").ok_or("there is no NAME = behind the first word")?;
    Ok((name.trim(), rest.trim()))
}

fn once<'a>(name: &str, mut others: impl Iterator<Item = &'a str>) -> Result<(), String> {
    match others.any(|other| other == name) {
        true => Err(format!("`{name}` is there twice")),
        false => Ok(()),
    }
}
