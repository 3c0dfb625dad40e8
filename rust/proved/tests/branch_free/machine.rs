//! The machine code of a function (x86-64) as `objdump` prints it, and which of its conditional jumps depend on
//! some of its arguments. Nothing is passed over: an instruction that is not known here is an error, and so is
//! one that reads or writes memory, calls another function or has an address for the linker to fill in.

use std::process::Command;

pub struct Instruction {
    at: u64,
    name: String,
    operands: Vec<String>,
}

/// Where a value can be: a bit for each register, for the carry flag, and for the other flags.
type Places = u32;
const CARRY: Places = 1 << 16;
const OTHER_FLAGS: Places = 1 << 17;
const FLAGS: Places = CARRY | OTHER_FLAGS;

/// The registers of a function's first arguments.
pub const ARGUMENTS: [&str; 3] = ["edi", "esi", "edx"];

/// The code of a function in an archive.
pub fn disassemble(archive: &str, function: &str) -> Vec<Instruction> {
    let output = Command::new("objdump")
        .args(["-r", "--no-show-raw-insn", "-M", "intel", &format!("--disassemble={function}"), archive])
        .output()
        .expect("objdump cannot be run; it belongs to the package binutils");
    assert!(output.status.success(), "objdump {archive}: {}", String::from_utf8_lossy(&output.stderr));
    let listing = String::from_utf8(output.stdout).unwrap();
    let (_, code) = listing
        .split_once(&format!("<{function}>:\n"))
        .unwrap_or_else(|| panic!("{function} is not in {archive}"));
    parse(code)
}

/// Lines such as `60: add eax,esi` and `95: jne 60 <name+0x60>`, up to an empty one.
pub fn parse(code: &str) -> Vec<Instruction> {
    let line = |line: &str| {
        let (at, text) = line.split_once(':').unwrap_or_else(|| panic!("no instruction: {line}"));
        let mut words = text.split(['#', '<']).next().unwrap().split_whitespace();
        let idle = words.clone().any(|word| word == "nop") || words.clone().eq(["xchg", "ax,ax"]);
        let name = if idle { "nop" } else { words.next().unwrap() };
        let operands = if idle { String::new() } else { words.collect::<Vec<_>>().join(" ") };
        Instruction {
            at: u64::from_str_radix(at.trim(), 16).unwrap(),
            name: name.to_string(),
            operands: operands.split(',').filter(|o| !o.is_empty()).map(str::to_string).collect(),
        }
    };
    code.lines().take_while(|line| !line.trim().is_empty()).map(line).collect()
}

/// Each register's names for 64, 32, 16 and 8 bits of it.
const REGISTERS: [[&str; 4]; 16] = [
    ["rax", "eax", "ax", "al"],
    ["rcx", "ecx", "cx", "cl"],
    ["rdx", "edx", "dx", "dl"],
    ["rbx", "ebx", "bx", "bl"],
    ["rsi", "esi", "si", "sil"],
    ["rdi", "edi", "di", "dil"],
    ["rbp", "ebp", "bp", "bpl"],
    ["rsp", "esp", "sp", "spl"],
    ["r8", "r8d", "r8w", "r8b"],
    ["r9", "r9d", "r9w", "r9b"],
    ["r10", "r10d", "r10w", "r10b"],
    ["r11", "r11d", "r11w", "r11b"],
    ["r12", "r12d", "r12w", "r12b"],
    ["r13", "r13d", "r13w", "r13b"],
    ["r14", "r14d", "r14w", "r14b"],
    ["r15", "r15d", "r15w", "r15b"],
];

/// A register by its place, and whether a result in it overwrites it whole: one of 32 bits does.
fn register(name: &str) -> Option<(Places, bool)> {
    let found = |(number, names): (usize, &[&str; 4])| {
        names.iter().position(|other| *other == name).map(|width| (1 << number, width < 2))
    };
    REGISTERS.iter().enumerate().find_map(found)
}

/// The registers that an operand names.
fn places(operand: &str) -> Places {
    let words = operand.split(|c: char| !c.is_alphanumeric());
    let names = words.filter(|word| word.starts_with(|c: char| c.is_alphabetic()));
    let place = |name| register(name).unwrap_or_else(|| panic!("a register that is not known: {name}")).0;
    names.fold(0, |all, name| all | place(name))
}

/// The flags that a condition reads, as `b` of `jb`.
fn condition(name: &str) -> Places {
    match name {
        "b" | "ae" => CARRY,
        "a" | "be" => FLAGS,
        "e" | "ne" | "s" | "ns" | "l" | "ge" | "le" | "g" | "o" | "no" | "p" | "np" => OTHER_FLAGS,
        _ => panic!("a condition that is not known: {name}"),
    }
}

impl Instruction {
    /// What it reads, and what it writes.
    fn effect(&self) -> (Places, Places) {
        let name = self.name.as_str();
        match name {
            "nop" | "ret" | "jmp" => return (0, 0),
            _ if self.is_conditional_jump() => return (condition(&name[1..]), 0),
            "lea" => {}
            _ => assert!(self.operands.iter().all(|operand| !operand.contains('[')), "memory: {self}"),
        }
        let to = self.operands.first().map_or(0, |operand| places(operand));
        let from = self.operands.iter().skip(1).fold(0, |all, operand| all | places(operand));
        match (name, self.operands.len()) {
            ("mov" | "movzx" | "movsx" | "movsxd" | "lea", 2) => (from, to),
            ("xor" | "sub", 2) if self.operands[0] == self.operands[1] => (0, to | FLAGS),
            ("add" | "sub" | "and" | "or" | "xor" | "imul", 2) | ("neg", 1) => (to | from, to | FLAGS),
            ("shl" | "shr" | "sar", 1 | 2) if from == 0 => (to, to | FLAGS),
            ("imul", 3) => (from, to | FLAGS),
            ("inc" | "dec", 1) => (to, to | OTHER_FLAGS),
            ("not", 1) => (to, to),
            ("cmp" | "test", 2) => (to | from, FLAGS),
            (_, 2) if name.starts_with("cmov") => (to | from | condition(&name[4..]), to),
            (_, 1) if name.starts_with("set") => (condition(&name[3..]), to),
            _ => panic!("an instruction that is not known: {self}"),
        }
    }

    fn is_conditional_jump(&self) -> bool {
        self.name.starts_with('j') && self.name != "jmp"
    }

    /// The places that depend on the arguments after it, from those before it. A result depends on what is read;
    /// one of eight or sixteen bits leaves the rest of its register.
    fn dependent_after(&self, before: Places) -> Places {
        let (reads, writes) = self.effect();
        let first = self.operands.first().and_then(|operand| register(operand));
        let partly = first.map_or(0, |(place, whole)| if whole { 0 } else { place });
        let kept = before & !(writes & !partly);
        if reads & before == 0 {
            kept
        } else {
            kept | writes
        }
    }
}

impl std::fmt::Display for Instruction {
    fn fmt(&self, f: &mut std::fmt::Formatter) -> std::fmt::Result {
        write!(f, "{:x}: {} {}", self.at, self.name, self.operands.join(","))
    }
}

/// The instructions that may come next.
fn next(code: &[Instruction], i: usize) -> Vec<usize> {
    let target = || {
        let at = u64::from_str_radix(&code[i].operands[0], 16).unwrap();
        code.iter()
            .position(|other| other.at == at)
            .unwrap_or_else(|| panic!("out of the function: {}", code[i]))
    };
    match code[i].name.as_str() {
        "ret" => vec![],
        "jmp" => vec![target()],
        _ if code[i].is_conditional_jump() => vec![i + 1, target()],
        _ => vec![i + 1],
    }
}

/// All conditional jumps.
pub fn conditional_jumps(code: &[Instruction]) -> Vec<String> {
    code.iter().filter(|i| i.is_conditional_jump()).map(Instruction::to_string).collect()
}

/// The conditional jumps whose condition depends on what these registers hold at the start, on some way through
/// the code.
pub fn jumps_on(code: &[Instruction], registers: &[&str]) -> Vec<String> {
    let start = registers.iter().fold(0, |all, name| all | places(name));
    let mut dependent: Vec<Option<Places>> = vec![None; code.len()];
    let mut left = vec![(0, start)];
    while let Some((i, arriving)) = left.pop() {
        let before = dependent[i].unwrap_or(0) | arriving;
        if dependent[i] != Some(before) {
            dependent[i] = Some(before);
            let after = code[i].dependent_after(before);
            left.extend(next(code, i).into_iter().map(|next| (next, after)));
        }
    }
    let depends = |i: usize| code[i].effect().0 & dependent[i].unwrap_or(0) != 0;
    let jumps = (0..code.len()).filter(|i| code[*i].is_conditional_jump() && depends(*i));
    jumps.map(|i| code[i].to_string()).collect()
}
