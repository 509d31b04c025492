//! The words of a call.

use crate::case::Stop;

/// The words that are left of a line.
#[derive(Drop)]
pub struct Words<'a> {
    rest: &'a str,
}

impl<'a> Words<'a> {
    pub fn new(rest: &'a str) -> Words<'a> {
        Words { rest }
    }

    /// The next word; an empty one where none is left.
    pub fn next(&mut self) -> &'a str {
        let (word, rest) = match self.rest.split_once(' ') {
            Some(parts) => parts,
            None => (self.rest, ""),
        };
        self.rest = rest;
        word
    }

    /// All that is left.
    pub fn rest(&self) -> &'a str {
        self.rest
    }

    /// The next word as a number.
    pub fn number(&mut self) -> Result<u64, Stop> {
        match self.next().parse::<u64>() {
            Ok(number) => Ok(number),
            Err(_) => Err(Stop::Unread),
        }
    }

    /// The next word as a number of a byte's range.
    pub fn small(&mut self) -> Result<u8, Stop> {
        match self.next().parse::<u8>() {
            Ok(number) => Ok(number),
            Err(_) => Err(Stop::Unread),
        }
    }

    /// The next word as two hexadecimal digits.
    pub fn byte(&mut self) -> Result<u8, Stop> {
        byte_of(self.next())
    }

    /// The bytes that all words left spell, two hexadecimal digits each.
    pub fn bytes(&mut self, out: &mut Vec<u8>) -> Result<(), Stop> {
        out.clear();
        if self.rest.is_empty() {
            return Ok(());
        }
        for word in self.rest.split(' ') {
            out.push(byte_of(word)?)?;
        }
        Ok(())
    }
}

/// The byte that two hexadecimal digits spell.
fn byte_of(word: &str) -> Result<u8, Stop> {
    match word.as_bytes() {
        [high, low] => Ok(digit(*high)? << 4 | digit(*low)?),
        _ => Err(Stop::Unread),
    }
}

fn digit(byte: u8) -> Result<u8, Stop> {
    match byte {
        b'0'..=b'9' => Ok(byte - b'0'),
        b'A'..=b'F' => Ok(byte - b'A' + 10),
        _ => Err(Stop::Unread),
    }
}
