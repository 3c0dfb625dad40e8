//! Damage to the lines and fields of a sheet.

use super::misspelled::{any_number, misspelled_keyword, misspelled_number, misspelled_root};
use super::pick;
use crate::Random;
use lomvuze_reference::sheet::{write, Sheet};

/// A sheet as lines of fields.
pub(super) struct Lines(Vec<Vec<Vec<u8>>>);

const KEYWORDS: [&[u8]; 7] = [b"size", b"a", b"b", b"c", b"item", b"wit", b"end"];

impl Lines {
    pub(super) fn of(sheet: &Sheet) -> Lines {
        let text = write(sheet);
        let line = |line: &[u8]| line.split(|byte| *byte == b'\t').map(|field| field.to_vec()).collect();
        Lines(text[..text.len() - 1].split(|byte| *byte == b'\n').map(line).collect())
    }

    pub(super) fn text(&self) -> Vec<u8> {
        self.0.iter().flat_map(|line| [line.join(&b'\t'), vec![b'\n']].concat()).collect()
    }

    /// A line that passes a test, if there is one.
    fn pick_line(&self, random: &mut Random, test: impl Fn(usize) -> bool) -> Option<usize> {
        let lines: Vec<usize> = (0..self.0.len()).filter(|i| test(*i)).collect();
        (!lines.is_empty()).then(|| pick(random, &lines))
    }

    fn keyword(&self, i: usize) -> &[u8] {
        &self.0[i][0]
    }

    /// Breaks a line rule, in a sheet that keeps them.
    pub(super) fn break_rule(&mut self, random: &mut Random) {
        let count = self.0.len();
        let i = random.below(count);
        let fields = self.0[i].len();
        match random.below(16) {
            0 => self.0[i][0] = misspelled_keyword(random, self.keyword(i)),
            1 | 2 => {
                let numbers = fields - if self.keyword(i) == b"item" { 2 } else { 1 };
                let field = 1 + random.below(numbers);
                self.0[i][field] = misspelled_number(random, &self.0[i][field]);
            }
            3 => match self.pick_line(random, |i| self.keyword(i) == b"item") {
                Some(item) => {
                    let root = self.0[item].last_mut().unwrap();
                    *root = misspelled_root(random, root);
                }
                None => self.0[i].truncate(1),
            },
            4 => self.drop_fields(random, i),
            5 => {
                let more: &[u8] = if self.keyword(i) == b"wit" { &[b'0'; 64] } else { b"1" };
                self.0[i].push(more.to_vec());
            }
            6 => self.move_first(random),
            7 => self.move_last(random),
            8 => self.0.insert(random.below(count + 1), vec![vec![]]),
            // A tab too many: at the front, doubled, or at the end of the line.
            9 => self.0[i].insert(random.below(fields + 1), vec![]),
            // No tab behind the keyword.
            10 => self.join(i, 0, b""),
            11 => {
                let between = pick::<&[u8]>(random, &[b" ", b",", b"\\t", b"\0", b"\x0b", b"\x08"]);
                self.join(i, random.below(fields - 1), between);
            }
            12 => self.0[i].last_mut().unwrap().push(b'\r'),
            13 => self.0.iter_mut().for_each(|line| line.last_mut().unwrap().push(b'\r')),
            _ => self.break_order(random),
        }
    }

    /// The first line is missing, stands in another place too, or stands last.
    fn move_first(&mut self, random: &mut Random) {
        match random.below(3) {
            0 => drop(self.0.remove(0)),
            1 => self.0.insert(random.below(self.0.len()), self.0[0].clone()),
            _ => self.0.rotate_left(1),
        }
    }

    /// The last line is missing, stands in another place too, or stands first.
    fn move_last(&mut self, random: &mut Random) {
        let count = self.0.len();
        match random.below(3) {
            0 => drop(self.0.pop()),
            1 => self.0.insert(random.below(count), self.0[count - 1].clone()),
            _ => self.0.rotate_right(1),
        }
    }

    /// Leaves too few fields for the keyword.
    fn drop_fields(&mut self, random: &mut Random, i: usize) {
        let fields = self.0[i].len();
        match (self.keyword(i), random.below(2)) {
            (b"item", 0) => drop(self.0[i].pop()),
            (b"item", _) => drop(self.0[i].drain(1..fields - 1)),
            (b"wit", _) => self.0[i].truncate(1),
            _ => drop(self.0[i].remove(1 + random.below(fields - 1))),
        }
    }

    /// Puts something else in the place of the tab behind a field.
    fn join(&mut self, i: usize, field: usize, between: &[u8]) {
        let next = self.0[i].remove(field + 1);
        self.0[i][field].extend([between, &next].concat());
    }

    /// Lines in an order that is not permitted.
    fn break_order(&mut self, random: &mut Random) {
        let last = self.0.len() - 1;
        let is_half = |i| [&b"item"[..], b"wit"].contains(&self.keyword(i));
        let is_entry = |i: usize| self.keyword(i).len() == 1;
        let half = self.pick_line(random, is_half);
        let entry = self.pick_line(random, is_entry);
        let border = self
            .pick_line(random, |i| is_entry(i) && is_entry(i + 1) && self.keyword(i) != self.keyword(i + 1));
        match (random.below(5), half, entry, border) {
            (0, Some(half), ..) => drop(self.0.remove(half)),
            (1, Some(half), ..) => self.0.insert(half, self.0[half].clone()),
            (2, Some(half), ..) => {
                let other = if self.keyword(half) == b"item" { half + 1 } else { half - 1 };
                self.0.swap(half, other);
            }
            (3, Some(_), Some(entry), _) => self.0[entry..last].rotate_left(1),
            (4, _, _, Some(border)) => self.0.swap(border, border + 1),
            _ => self.0.swap(0, last),
        }
    }

    /// Any change of lines or fields.
    pub(super) fn change(&mut self, random: &mut Random) {
        if self.0.is_empty() {
            return;
        }
        match random.below(3) {
            0 => self.change_lines(random),
            _ => self.change_fields(random),
        }
        self.0.retain(|line| !line.is_empty());
    }

    fn change_lines(&mut self, random: &mut Random) {
        let count = self.0.len();
        let (i, j) = (random.below(count), random.below(count));
        match random.below(6) {
            0 => self.0.swap(i, j),
            1 => self.0.swap(i, (i + 1) % count),
            2 => drop(self.0.remove(i)),
            3 => self.0.insert(i, self.0[j].clone()),
            4 => {
                let line = self.0.remove(i);
                self.0.insert(j, line);
            }
            _ => self.0.insert(i, vec![vec![]]),
        }
    }

    fn change_fields(&mut self, random: &mut Random) {
        let i = random.below(self.0.len());
        let field = random.below(self.0[i].len());
        let next = (field + 1).min(self.0[i].len() - 1);
        match random.below(12) {
            0 => self.0[i][0] = pick(random, &KEYWORDS).to_vec(),
            1 => self.0[i][0] = misspelled_keyword(random, self.keyword(i)),
            2 => drop(self.0[i].remove(field)),
            3 => {
                let field = self.0[i][field].clone();
                self.0[i].insert(next, field);
            }
            4 => self.0[i].swap(field, next),
            5 if field < next => self.join(i, field, b""),
            6 => {
                let at = random.below(self.0[i][field].len() + 1);
                let behind = self.0[i][field].split_off(at);
                self.0[i].insert(field + 1, behind);
            }
            7 => self.0[i].push(vec![]),
            8 => self.0[i].last_mut().unwrap().push(b'\r'),
            9 if self.0[i].last().unwrap().len() == 64 => {
                let root = self.0[i].last_mut().unwrap();
                *root = misspelled_root(random, root);
            }
            _ => self.0[i][field] = any_number(random),
        }
    }
}
