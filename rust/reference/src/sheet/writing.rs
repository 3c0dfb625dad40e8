//! Writing sheets.

use super::Sheet;
use crate::sha256::Digest;

/// The text of a sheet, with byte 10 behind every line.
pub fn write(sheet: &Sheet) -> Vec<u8> {
    let mut text = line("size", &sheet.size, None);
    for (keyword, list) in [("a", &sheet.a), ("b", &sheet.b), ("c", &sheet.c)] {
        text.extend(list.iter().map(|entry| line(keyword, entry, None)));
    }
    for pair in &sheet.pairs {
        text += &line("item", &pair.numbers, Some(&pair.root));
        text += &line("wit", &pair.witness, None);
    }
    text += &line("end", &[sheet.end], None);
    text.into_bytes()
}

fn line(keyword: &str, numbers: &[u32], root: Option<&Digest>) -> String {
    let numbers = numbers.iter().map(|number| number.to_string());
    let root = root.map(|root| root.iter().map(|byte| format!("{byte:02x}")).collect());
    let fields: Vec<String> = [keyword.to_string()].into_iter().chain(numbers).chain(root).collect();
    fields.join("\t") + "\n"
}
