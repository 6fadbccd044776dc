//! Lines typed as text, read plainly from left to right: a verb, a condition in hex, then parts after a `/` each. The rules are those that
//! the program `lines` reads by; none of its code is used.

use crate::document::{Whole, NUMBERS};

/// More bytes of a condition than these are not understood.
const MOST_BYTES: usize = 256;

/// A line may have one number more than an assignment, to show what is answered to too many.
const MOST_NUMBERS: usize = NUMBERS + 1;

/// The place in its line, from 0, of the first character that cannot be continued; the line's length if more had to follow.
#[derive(Debug)]
pub struct Stuck(pub usize);

pub struct Line<'a> {
    text: &'a [u8],
    at: usize,
}

impl Line<'_> {
    pub fn new(text: &[u8]) -> Line<'_> {
        Line { text, at: 0 }
    }

    fn next(&self) -> Option<u8> {
        self.text.get(self.at).copied()
    }

    fn stuck<T>(&self) -> Result<T, Stuck> {
        Err(Stuck(self.at))
    }

    fn skip_spaces(&mut self) {
        while self.next() == Some(b' ') {
            self.at += 1;
        }
    }

    /// Whether the line ends here, or `mark` stands here.
    fn ends_or(&self, mark: u8) -> bool {
        self.next().is_none_or(|character| character == mark)
    }

    /// That nothing more stands in the line.
    pub fn end(&self) -> Result<(), Stuck> {
        if self.next().is_some() {
            return self.stuck();
        }
        Ok(())
    }

    /// The value of the digit that stands here, which is not passed.
    fn digit(&self, base: u32) -> Option<u32> {
        char::from(self.next()?).to_digit(base)
    }

    fn hex_digit(&mut self) -> Result<u8, Stuck> {
        let Some(value) = self.digit(16) else {
            return self.stuck();
        };
        self.at += 1;
        Ok(value as u8)
    }

    /// The line's first word, which begins it; nothing if a space does.
    pub fn verb(&mut self) -> String {
        let length = self.text.iter().position(|character| *character == b' ').unwrap_or(self.text.len());
        self.at = length;
        String::from_utf8_lossy(&self.text[..length]).into_owned()
    }

    /// The condition's bytes, up to the line's end or a `/`. Spaces may stand between bytes, but not inside one.
    pub fn tree(&mut self) -> Result<Vec<u8>, Stuck> {
        let mut bytes = Vec::new();
        self.skip_spaces();
        while !self.ends_or(b'/') {
            if bytes.len() == MOST_BYTES {
                return self.stuck();
            }
            bytes.push(16 * self.hex_digit()? + self.hex_digit()?);
            self.skip_spaces();
        }
        Ok(bytes)
    }

    /// A decimal of at most `most`; the digit that takes it above is not understood.
    fn decimal(&mut self, most: i64) -> Result<i64, Stuck> {
        let start = self.at;
        let mut value = 0;
        while let Some(digit) = self.digit(10) {
            value = 10 * value + i64::from(digit);
            if value > most {
                return self.stuck();
            }
            self.at += 1;
        }
        if self.at == start {
            return self.stuck();
        }
        Ok(value)
    }

    /// A `/` and a decimal of at most `most`, up to the line's end or the next `/`. A line that has ended before stands for 0.
    pub fn part(&mut self, most: i64) -> Result<i64, Stuck> {
        if self.next().is_none() {
            return Ok(0);
        }
        self.at += 1;
        self.skip_spaces();
        let value = self.decimal(most)?;
        self.skip_spaces();
        if !self.ends_or(b'/') {
            return self.stuck();
        }
        Ok(value)
    }

    fn number(&mut self) -> Result<Whole, Stuck> {
        if self.next() == Some(b'-') {
            self.at += 1;
            return Ok(-self.decimal(1 << 31)? as Whole);
        }
        Ok(self.decimal((1 << 31) - 1)? as Whole)
    }

    /// The word `..`, which is the line's last.
    fn filling(&mut self) -> Result<(), Stuck> {
        self.at += 1;
        if self.next() != Some(b'.') {
            return self.stuck();
        }
        self.at += 1;
        self.skip_spaces();
        self.end()
    }

    /// A `/` and signed numbers, up to the line's end; zeros up to as many as an assignment has in place of a last `..`, and for a line
    /// that has ended before.
    pub fn numbers(&mut self) -> Result<Vec<Whole>, Stuck> {
        if self.next().is_none() {
            return Ok(vec![0; NUMBERS]);
        }
        self.at += 1;
        self.skip_spaces();
        let mut numbers = Vec::new();
        while let Some(character) = self.next() {
            if character == b'.' {
                self.filling()?;
                numbers.resize(numbers.len().max(NUMBERS), 0);
                return Ok(numbers);
            }
            if numbers.len() == MOST_NUMBERS {
                return self.stuck();
            }
            numbers.push(self.number()?);
            if !self.ends_or(b' ') {
                return self.stuck();
            }
            self.skip_spaces();
        }
        Ok(numbers)
    }
}
