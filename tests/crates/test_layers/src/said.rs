//! What a call answers, as words with a blank between each two.

use std::alloc::{AllocError, Global};
use std::fmt::Write;

/// The words of an answer.
#[derive(Drop)]
pub struct Said {
    text: String,
}

impl Said {
    pub fn new(alloc: Global) -> Said {
        Said {
            text: String::new(alloc),
        }
    }

    pub fn text(&self) -> &str {
        self.text.as_str()
    }

    pub fn clear(&mut self) {
        self.text.clear();
    }

    fn part(&mut self) -> Result<(), AllocError> {
        if self.text.is_empty() {
            return Ok(());
        }
        self.text.push(' ')
    }

    pub fn word(&mut self, word: &str) -> Result<(), AllocError> {
        self.part()?;
        self.text.push_str(word)
    }

    pub fn number(&mut self, number: u64) -> Result<(), AllocError> {
        self.part()?;
        write!(self.text, "{number}")
    }

    pub fn signed(&mut self, number: i32) -> Result<(), AllocError> {
        self.part()?;
        write!(self.text, "{number}")
    }

    /// A word, and a number behind it.
    pub fn numbered(&mut self, word: &str, number: u64) -> Result<(), AllocError> {
        self.word(word)?;
        self.number(number)
    }

    /// A number, or `none`.
    pub fn number_or_none(&mut self, number: Option<u64>) -> Result<(), AllocError> {
        match number {
            Some(number) => self.number(number),
            None => self.word("none"),
        }
    }

    /// Two hexadecimal digits.
    pub fn byte(&mut self, byte: u8) -> Result<(), AllocError> {
        self.part()?;
        write!(self.text, "{byte:02X}")
    }

    pub fn bytes(&mut self, bytes: &[u8]) -> Result<(), AllocError> {
        for byte in bytes {
            self.byte(*byte)?;
        }
        Ok(())
    }
}
