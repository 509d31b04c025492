//! What a server answers, by its session's state (MS-TDS 2.2.7). The same function says what a connection's
//! server answers, and what an application would hear of a server of its own.

use crate::request::{Action, Request};
use std::alloc::AllocError;
use tds_packet::Reset;

/// The news that a reset is done: ENVCHANGE of type 18.
pub(crate) const NEWS: [u8; 6] = [0xE3, 3, 0, 18, 0, 0];

/// A DONE, and one that acknowledges an attention.
pub(crate) const DONE: [u8; 13] = [0xFD, 0, 0, 0, 0, 0, 0, 0, 0, 0, 0, 0, 0];

pub(crate) const ACKNOWLEDGED: [u8; 13] = [0xFD, 0x20, 0, 0, 0, 0, 0, 0, 0, 0, 0, 0, 0];

/// A DONE of a request that failed, and the ERROR in front of it.
const FAILED: [u8; 13] = [0xFD, 2, 0, 0, 0, 0, 0, 0, 0, 0, 0, 0, 0];

const ERROR: [u8; 17] = [0xAA, 14, 0, 0x3E, 0x0F, 0, 0, 1, 16, 0, 0, 0, 0, 1, 0, 0, 0];

/// A result of one column of INT4 without a name.
pub(crate) const COLUMNS: [u8; 11] = [0x81, 1, 0, 0, 0, 0, 0, 0, 0, 0x38, 0];

/// A session of a server.
#[derive(Clone, Copy, Debug, PartialEq, Eq)]
pub(crate) struct State {
    pub(crate) setting: u8,
    pub(crate) database: u8,
    /// The descriptor of the transaction that is open; 0 where none is.
    pub(crate) transaction: u64,
}

impl State {
    pub(crate) fn fresh() -> State {
        State {
            setting: 0,
            database: b'a',
            transaction: 0,
        }
    }

    /// It is reset, and tells it.
    pub(crate) fn reset(&mut self, reset: Reset, out: &mut Vec<u8>) -> Result<(), AllocError> {
        let transaction = match reset {
            Reset::Full => 0,
            Reset::KeepTransaction => self.transaction,
        };
        *self = State::fresh();
        self.transaction = transaction;
        out.extend_from_slice(&NEWS)
    }

    /// Appends what a request's answer is, in this state.
    pub(crate) fn answer(
        &mut self,
        request: &Request,
        out: &mut Vec<u8>,
    ) -> Result<(), AllocError> {
        match request.action {
            Action::Get => {
                out.extend_from_slice(&[0x79, self.setting, 0, 0, 0])?;
                out.extend_from_slice(&DONE)
            }
            Action::Set(value) => {
                self.setting = value;
                out.extend_from_slice(&DONE)
            }
            Action::Begin => self.begin(request, out),
            Action::Commit => self.commit(out),
            Action::Rows(count) => put_rows(request, u16::from(count), out),
            Action::Many(count) => put_rows(request, 64 * u16::from(count), out),
            Action::Renew => {
                if self.transaction != 0 {
                    return put_error(out);
                }
                self.reset(Reset::Full, out)?;
                out.extend_from_slice(&DONE)
            }
            Action::Use(name) => {
                let old = self.database;
                self.database = name;
                out.extend_from_slice(&[0xE3, 7, 0, 1, 1, name, 0, 1, old, 0])?;
                out.extend_from_slice(&DONE)
            }
        }
    }

    fn begin(&mut self, request: &Request, out: &mut Vec<u8>) -> Result<(), AllocError> {
        if self.transaction != 0 {
            return put_error(out);
        }
        self.transaction = u64::from(request.session) * 256 + u64::from(request.number) + 1;
        out.extend_from_slice(&[0xE3, 11, 0, 8, 8])?;
        out.extend_from_slice(&self.transaction.to_le_bytes())?;
        out.extend_from_slice(&[0])?;
        out.extend_from_slice(&DONE)
    }

    fn commit(&mut self, out: &mut Vec<u8>) -> Result<(), AllocError> {
        if self.transaction == 0 {
            return put_error(out);
        }
        out.extend_from_slice(&[0xE3, 11, 0, 9, 0, 8])?;
        out.extend_from_slice(&self.transaction.to_le_bytes())?;
        out.extend_from_slice(&DONE)?;
        self.transaction = 0;
        Ok(())
    }
}

fn put_error(out: &mut Vec<u8>) -> Result<(), AllocError> {
    out.extend_from_slice(&ERROR)?;
    out.extend_from_slice(&FAILED)
}

/// Rows whose values name the request.
fn put_rows(request: &Request, count: u16, out: &mut Vec<u8>) -> Result<(), AllocError> {
    out.extend_from_slice(&COLUMNS)?;
    let first = request
        .session
        .wrapping_mul(4096)
        .wrapping_add(u32::from(request.number).wrapping_mul(256));
    for place in 0..count {
        let value = first.wrapping_add(u32::from(place));
        out.extend_from_slice(&[0xD1])?;
        out.extend_from_slice(&value.to_le_bytes())?;
    }
    let [low, high] = count.to_le_bytes();
    out.extend_from_slice(&[0xFD, 0x10, 0, 0, 0, low, high, 0, 0, 0, 0, 0, 0])
}

/// How long the token is that these bytes begin with.
fn token_length(bytes: &[u8]) -> usize {
    match bytes {
        [0x81, ..] => 11,
        [0xD1, ..] => 5,
        [0x79, ..] => 5,
        [0xE3, low, high, ..] => 3 + usize::from(*low) + 256 * usize::from(*high),
        [0xAA, low, high, ..] => 3 + usize::from(*low) + 256 * usize::from(*high),
        _ => 13,
    }
}

/// The first place where a token ends and that isn't in front of this one.
pub(crate) fn token_end(answer: &[u8], place: usize) -> usize {
    let mut end = 0usize;
    for _ in 0..answer.len() {
        if end >= place {
            break;
        }
        let rest = match answer.get(end..) {
            Some(rest) => rest,
            None => &[],
        };
        end = end.saturating_add(token_length(rest));
    }
    end.min(answer.len())
}

/// Whether a message is the front part of this answer, up to the end of a token, and the acknowledgement
/// of an attention.
pub(crate) fn is_cut(message: &[u8], answer: &[u8]) -> bool {
    let Some(count) = message.len().checked_sub(ACKNOWLEDGED.len()) else {
        return false;
    };
    let (part, end) = message.split_at(count);
    end == ACKNOWLEDGED.as_slice() && is_part(part, answer) && token_end(answer, count) == count
}

/// Whether these bytes are the front part of an answer.
pub(crate) fn is_part(bytes: &[u8], answer: &[u8]) -> bool {
    match answer.get(..bytes.len()) {
        Some(part) => part == bytes,
        None => false,
    }
}
