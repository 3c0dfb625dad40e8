//! Formulas over the numbers of a call, with +, -, * and parentheses.

use alloc::boxed::Box;
use alloc::format;
use alloc::string::String;
use alloc::vec::Vec;

/// A formula. It is worked out over numbers of any size: a difference below 0 is 0, and what is greater than 2^64 - 1 is
/// that.
#[derive(Clone, PartialEq, Debug)]
pub enum Formula<'a> {
    Constant(u64),
    Number(&'a str),
    /// log2(4k), and 0 for k = 0.
    Depth,
    Sum(Box<Formula<'a>>, Box<Formula<'a>>),
    Difference(Box<Formula<'a>>, Box<Formula<'a>>),
    Product(Box<Formula<'a>>, Box<Formula<'a>>),
}

impl<'a> Formula<'a> {
    /// The value where the numbers are these.
    pub fn value(&self, number: &dyn Fn(&str) -> u32) -> u64 {
        let value = |formula: &Formula| formula.value(number);
        match self {
            Formula::Constant(value) => *value,
            Formula::Number(name) => number(name).into(),
            Formula::Depth => number("k").checked_ilog2().map_or(0, |log| u64::from(log) + 2),
            Formula::Sum(a, b) => value(a).saturating_add(value(b)),
            Formula::Difference(a, b) => value(a).saturating_sub(value(b)),
            Formula::Product(a, b) => value(a).saturating_mul(value(b)),
        }
    }

    /// The numbers that the value depends on.
    pub fn numbers(&self) -> Vec<&'a str> {
        match self {
            Formula::Constant(_) => Vec::new(),
            Formula::Number(name) => [*name].into(),
            Formula::Depth => ["k"].into(),
            Formula::Sum(a, b) | Formula::Difference(a, b) | Formula::Product(a, b) => {
                [a.numbers(), b.numbers()].concat()
            }
        }
    }

    /// Reads a formula. A name that is no number stands for what `known` gives for it.
    pub(crate) fn read(
        text: &'a str,
        known: &dyn Fn(&'a str) -> Option<Formula<'a>>,
    ) -> Result<Formula<'a>, String> {
        let mut rest = Rest { text, known };
        let formula = rest.sum()?;
        match rest.next() {
            None => Ok(formula),
            Some(_) => Err(format!("`{}` behind a formula", rest.text.trim())),
        }
    }
}

/// What is left of a formula's text.
struct Rest<'a, 'b> {
    text: &'a str,
    known: &'b dyn Fn(&'a str) -> Option<Formula<'a>>,
}

impl<'a> Rest<'a, '_> {
    /// The first letter, which is left in its place.
    fn next(&mut self) -> Option<char> {
        self.text = self.text.trim_start();
        self.text.chars().next()
    }

    /// Takes one of these letters off, where it stands first.
    fn take(&mut self, letters: &[char]) -> Option<char> {
        let letter = self.next().filter(|letter| letters.contains(letter))?;
        self.text = &self.text[letter.len_utf8()..];
        Some(letter)
    }

    fn sum(&mut self) -> Result<Formula<'a>, String> {
        let mut left = self.product()?;
        while let Some(sign) = self.take(&['+', '-']) {
            let (a, b) = (Box::new(left), Box::new(self.product()?));
            left = if sign == '+' { Formula::Sum(a, b) } else { Formula::Difference(a, b) };
        }
        Ok(left)
    }

    fn product(&mut self) -> Result<Formula<'a>, String> {
        let mut left = self.factor()?;
        while self.take(&['*']).is_some() {
            left = Formula::Product(Box::new(left), Box::new(self.factor()?));
        }
        Ok(left)
    }

    fn factor(&mut self) -> Result<Formula<'a>, String> {
        if self.take(&['(']).is_some() {
            let inner = self.sum()?;
            return match self.take(&[')']) {
                Some(_) => Ok(inner),
                None => Err("a parenthesis is not closed".into()),
            };
        }
        self.next();
        let end = self.text.find(|letter: char| !letter.is_ascii_alphanumeric() && letter != '_');
        let (word, behind) = self.text.split_at(end.unwrap_or(self.text.len()));
        self.text = behind;
        match word.as_bytes().first() {
            None => Err("a number or a name is missing in a formula".into()),
            Some(b'0'..=b'9') => {
                word.parse().map(Formula::Constant).map_err(|_| format!("`{word}` is no number"))
            }
            Some(_) => (self.known)(word).ok_or_else(|| format!("`{word}` is no name that a line above has")),
        }
    }
}
