//! Packets out of bytes, and tokens out of a packet's data.

use crate::fault::Fault;
use crate::raw;

/// How many packets are found in one call.
const FOUND: usize = 16;

/// The packets at the front of some bytes that come from a server, one behind the other. It ends
/// where less than a packet is left, which `rest` has, and behind a header that is wrong.
pub struct Packets<'a> {
    bytes: &'a [u8],
    size: u16,
    /// Those from `next` to `count` were found and are still to be given; `answer` says what stands
    /// behind them.
    found: [raw::Packet; FOUND],
    next: usize,
    count: usize,
    answer: u8,
}

impl<'a> Packets<'a> {
    pub fn new(bytes: &'a [u8], size: u16) -> Packets<'a> {
        Packets { bytes, size, found: [raw::Packet::default(); FOUND], next: 0, count: 0, answer: 0 }
    }

    /// What no packet was made of yet: more bytes are put behind these.
    pub fn rest(&self) -> &'a [u8] {
        self.bytes
    }
}

impl<'a> Iterator for Packets<'a> {
    type Item = Result<&'a [u8], Fault>;

    fn next(&mut self) -> Option<Result<&'a [u8], Fault>> {
        if self.next == self.count && self.answer == 0 {
            let (at, length, room) = (self.bytes.as_ptr(), self.bytes.len(), self.found.as_mut_ptr());
            self.next = 0;
            // SAFETY: each pointer and length is that of one slice or array, and they don't overlap.
            self.answer = unsafe { raw::tds_packets_read(at, length, self.size, 1, room, FOUND, &mut self.count) };
        }
        if self.next < self.count {
            let (front, rest) = self.bytes.split_at(self.found[self.next].length);
            self.next += 1;
            self.bytes = rest;
            return Some(Ok(front));
        }
        match std::mem::replace(&mut self.answer, 24) {
            24 => None,
            number => Some(Err(Fault::of(number))),
        }
    }
}

/// What an INFO or an ERROR says.
#[derive(Clone, PartialEq, Eq, Debug)]
pub struct Message {
    pub number: i32,
    pub state: u8,
    pub severity: u8,
    pub line: i32,
    pub text: String,
}

/// A change of the session, with the transaction's descriptor.
#[derive(Clone, Copy, PartialEq, Eq, Debug)]
pub enum Change {
    Begin(u64),
    Commit(u64),
    Rollback(u64),
    ResetDone,
}

/// A token.
#[derive(Clone, PartialEq, Eq, Debug)]
pub enum Token {
    Info(Message),
    Error(Message),
    ReturnStatus(i32),
    /// So many columns.
    Columns(u8),
    Row(Vec<i32>),
    Change(Change),
    Done { status: u16, cur_cmd: u16, rows: u64 },
}

/// How many tokens are read in one call.
const ROOM: usize = 32;

/// The tokens of a packet's data, one behind the other. A fault is the last thing that it gives.
pub struct Tokens<'a> {
    data: &'a [u8],
    cursor: raw::Cursor,
    /// Those that were read and not given yet, from `next` to `count`, and what the call answered.
    read: [raw::Token; ROOM],
    next: usize,
    count: usize,
    answer: u8,
    changes: bool,
}

impl<'a> Tokens<'a> {
    /// All tokens of these data, where so many columns are known, 0 for none.
    pub fn new(data: &'a [u8], columns: u8) -> Tokens<'a> {
        let read = [raw::Token::default(); ROOM];
        Tokens { data, cursor: raw::Cursor { at: 0, columns }, read, next: 0, count: 0, answer: 0, changes: true }
    }

    /// Those that a client tells: all but the ENVCHANGEs.
    pub(crate) fn told(data: &'a [u8], columns: u8) -> Tokens<'a> {
        Tokens { changes: false, ..Tokens::new(data, columns) }
    }

    /// The rows at the front of these data, and the tokens behind them.
    pub fn behind_rows(data: &'a [u8], columns: u8) -> (Rows<'a>, Tokens<'a>) {
        let (mut tokens, mut rows) = (Tokens::new(data, columns), raw::Rows::default());
        // SAFETY: the pointer and the length are those of one slice.
        unsafe { raw::tds_rows_next(data.as_ptr(), data.len(), &mut tokens.cursor, &mut rows) };
        (Rows { bytes: &data[..rows.count * (1 + 4 * rows.columns)], columns: rows.columns }, tokens)
    }

    fn read_more(&mut self) {
        let (tokens, room) = (self.read.as_mut_ptr(), self.read.len());
        self.next = 0;
        // SAFETY: each pointer and length is that of one slice or array, and they don't overlap.
        self.answer = unsafe {
            raw::tds_tokens_next(self.data.as_ptr(), self.data.len(), &mut self.cursor, tokens, room, &mut self.count)
        };
    }

    fn token(&self, token: &raw::Token) -> Token {
        let bytes = &self.data[token.start..];
        let message = || Message {
            number: token.number,
            state: token.state,
            severity: token.severity,
            line: token.line,
            text: text(&bytes[11..], usize::from(u16::from_le_bytes([bytes[9], bytes[10]]))),
        };
        match token.kind {
            0xAB => Token::Info(message()),
            0xAA => Token::Error(message()),
            0x79 => Token::ReturnStatus(token.number),
            0x81 => Token::Columns(token.value as u8),
            0xD1 => Token::Row(bytes[1..].chunks_exact(4).take(token.value as usize).map(int).collect()),
            0xE3 => Token::Change(match token.change {
                8 => Change::Begin(token.value),
                9 => Change::Commit(token.value),
                10 => Change::Rollback(token.value),
                _ => Change::ResetDone,
            }),
            _ => Token::Done { status: token.status, cur_cmd: token.cur_cmd, rows: token.value },
        }
    }
}

fn int(bytes: &[u8]) -> i32 {
    i32::from_le_bytes([bytes[0], bytes[1], bytes[2], bytes[3]])
}

fn text(bytes: &[u8], count: usize) -> String {
    let units: Vec<u16> = bytes.chunks_exact(2).take(count).map(|b| u16::from_le_bytes([b[0], b[1]])).collect();
    String::from_utf16_lossy(&units)
}

impl Iterator for Tokens<'_> {
    type Item = Result<Token, Fault>;

    fn next(&mut self) -> Option<Result<Token, Fault>> {
        loop {
            while self.next < self.count {
                let token = self.read[self.next];
                self.next += 1;
                if token.kind != 0xE3 || self.changes {
                    return Some(Ok(self.token(&token)));
                }
            }
            match std::mem::replace(&mut self.answer, 9) {
                0 => self.read_more(),
                9 => return None,
                number => return Some(Err(Fault::of(number))),
            }
        }
    }
}

/// Rows one behind the other, all of the same width.
pub struct Rows<'a> {
    bytes: &'a [u8],
    columns: usize,
}

impl Iterator for Rows<'_> {
    type Item = Vec<i32>;

    fn next(&mut self) -> Option<Vec<i32>> {
        let row = self.bytes.get(1..1 + 4 * self.columns)?;
        self.bytes = &self.bytes[1 + 4 * self.columns..];
        Some(row.chunks_exact(4).map(int).collect())
    }
}
