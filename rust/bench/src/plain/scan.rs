//! Check 1 of a sheet, and what it says, byte by byte into buffers. The reference splits it into lines and fields first.

use lomvuze_calls::layout::{ItemLayout, DIGEST_BYTES};
use lomvuze_reference::sheet::MOST_BYTES;

/// A buffer and how many numbers were read into it, four bytes each, lowest first. Those for which there is no
/// room are counted only: in a buffer of the greatest length they are more than any sizes permit.
pub struct Numbers<'a> {
    pub bytes: &'a mut [u8],
    pub count: usize,
}

impl<'a> Numbers<'a> {
    fn new(bytes: &'a mut [u8]) -> Self {
        Numbers { bytes, count: 0 }
    }

    fn push(&mut self, number: u32) {
        if let Some(place) = self.bytes.get_mut(4 * self.count..4 * self.count + 4) {
            place.copy_from_slice(&number.to_le_bytes());
        }
        self.count += 1;
    }

    /// A root takes the place of eight numbers.
    fn push_root(&mut self, root: &[u8; 32]) {
        if let Some(place) = self.bytes.get_mut(4 * self.count..4 * self.count + DIGEST_BYTES) {
            place.copy_from_slice(root);
        }
        self.count += DIGEST_BYTES / 4;
    }

    /// The bytes of those that were read, if there was room for all.
    pub fn read(&self) -> &[u8] {
        &self.bytes[..4 * self.count]
    }
}

pub struct Sheet<'a> {
    pub size: [u32; 3],
    pub entries: [Numbers<'a>; 3],
    pub items: Numbers<'a>,
    pub wits: Numbers<'a>,
    pub pairs: usize,
    /// Whether every line of a pair has as many numbers as the sizes say.
    pub fits: bool,
    pub end: u32,
}

impl<'a> Sheet<'a> {
    pub fn new(
        a: &'a mut [u8],
        b: &'a mut [u8],
        c: &'a mut [u8],
        items: &'a mut [u8],
        wits: &'a mut [u8],
    ) -> Self {
        let entries = [a, b, c].map(Numbers::new);
        let (items, wits) = (Numbers::new(items), Numbers::new(wits));
        Sheet { size: [0; 3], entries, items, wits, pairs: 0, fits: true, end: 0 }
    }
}

pub struct Scanner<'a> {
    pub sheet: &'a [u8],
    pub at: usize,
}

impl Scanner<'_> {
    /// Passes a keyword and its tab, if they come next.
    fn keyword(&mut self, keyword: &[u8]) -> bool {
        let next = self.sheet[self.at..].starts_with(keyword);
        if next {
            self.at += keyword.len();
        }
        next
    }

    fn number(&mut self) -> Option<u32> {
        let start = self.at;
        let mut value = 0u64;
        while let Some(digit @ b'0'..=b'9') = self.sheet.get(self.at) {
            if self.at - start == 10 {
                return None;
            }
            value = 10 * value + (digit - b'0') as u64;
            self.at += 1;
        }
        let digits = self.at - start;
        if digits == 0 || digits > 1 && self.sheet[start] == b'0' {
            return None;
        }
        value.try_into().ok()
    }

    fn tab(&mut self) -> bool {
        let next = self.sheet.get(self.at) == Some(&b'\t');
        self.at += next as usize;
        next
    }

    fn line_end(&mut self) -> bool {
        match self.sheet.get(self.at) {
            Some(b'\n') => {
                self.at += 1;
                true
            }
            Some(_) => false,
            None => true,
        }
    }

    fn three(&mut self) -> Option<[u32; 3]> {
        let first = self.number().filter(|_| self.tab())?;
        let second = self.number().filter(|_| self.tab())?;
        let third = self.number().filter(|_| self.line_end())?;
        Some([first, second, third])
    }

    fn root(&mut self) -> Option<[u8; DIGEST_BYTES]> {
        let mut root = [0; DIGEST_BYTES];
        let digits = self.sheet.get(self.at..self.at + 64)?;
        for (byte, digits) in root.iter_mut().zip(digits.chunks_exact(2)) {
            *byte = 16 * digit(digits[0])? + digit(digits[1])?;
        }
        self.at += 64;
        self.line_end().then_some(root)
    }

    /// Numbers with a tab behind each, and then a root.
    fn item(&mut self, numbers: &mut Numbers) -> Option<()> {
        let before = numbers.count;
        loop {
            let start = self.at;
            match self.number() {
                Some(number) if self.tab() => numbers.push(number),
                _ => {
                    self.at = start;
                    break;
                }
            }
        }
        if numbers.count == before {
            return None;
        }
        numbers.push_root(&self.root()?);
        Some(())
    }

    fn wit(&mut self, numbers: &mut Numbers) -> Option<()> {
        loop {
            numbers.push(self.number()?);
            if !self.tab() {
                return self.line_end().then_some(());
            }
        }
    }
}

fn digit(byte: u8) -> Option<u8> {
    match byte {
        b'0'..=b'9' => Some(byte - b'0'),
        b'a'..=b'f' => Some(byte - b'a' + 10),
        _ => None,
    }
}

/// The sizes, and the entries up to the first item.
pub fn scan_entries(scanner: &mut Scanner, out: &mut Sheet) -> Option<()> {
    if !scanner.keyword(b"size\t") {
        return None;
    }
    out.size = scanner.three()?;
    for (keyword, list) in [b"a\t", b"b\t", b"c\t"].into_iter().zip(&mut out.entries) {
        while scanner.keyword(keyword) {
            for number in scanner.three()? {
                list.push(number);
            }
        }
    }
    Some(())
}

pub fn scan(sheet: &[u8], out: &mut Sheet) -> Option<()> {
    if sheet.len() > MOST_BYTES {
        return None;
    }
    let mut scanner = Scanner { sheet, at: 0 };
    scan_entries(&mut scanner, out)?;
    let [m, n, k] = out.size;
    let [item, wit] = [ItemLayout { m, n }.bytes() / 4, k as usize];
    while scanner.keyword(b"item\t") {
        let (items, wits) = (out.items.count, out.wits.count);
        scanner.item(&mut out.items)?;
        if !scanner.keyword(b"wit\t") {
            return None;
        }
        scanner.wit(&mut out.wits)?;
        out.fits &= out.items.count - items == item && out.wits.count - wits == wit;
        out.pairs += 1;
    }
    if !scanner.keyword(b"end\t") {
        return None;
    }
    out.end = scanner.number().filter(|_| scanner.line_end())?;
    (scanner.at == sheet.len()).then_some(())
}
