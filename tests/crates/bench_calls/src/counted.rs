//! What a walk counts.

use std::fmt::{self, Display, Formatter, Write};

/// What a walk met.
#[derive(Clone, Copy)]
pub struct Counted {
    pub packets: u64,
    pub tokens: u64,
    pub rows: u64,
    /// Of the lengths, the client's answers or the values, modulo 2^64.
    pub sum: u64,
}

impl Counted {
    pub fn none() -> Counted {
        Counted {
            packets: 0,
            tokens: 0,
            rows: 0,
            sum: 0,
        }
    }

    pub fn add(&mut self, value: u64) {
        self.sum = self.sum.wrapping_add(value);
    }

    pub fn add_packet(&mut self) {
        self.packets = self.packets.wrapping_add(1);
    }

    pub fn add_token(&mut self) {
        self.tokens = self.tokens.wrapping_add(1);
    }

    pub fn add_row(&mut self) {
        self.rows = self.rows.wrapping_add(1);
    }

    /// A run of so many rows, each a token.
    pub fn add_rows(&mut self, count: usize) {
        self.tokens = self.tokens.wrapping_add(count as u64);
        self.rows = self.rows.wrapping_add(count as u64);
    }
}

impl Display for Counted {
    fn fmt<W: Write>(&self, f: &mut Formatter<W>) -> fmt::Result {
        write!(
            f,
            "{} {} {} {}",
            self.packets, self.tokens, self.rows, self.sum
        )
    }
}
