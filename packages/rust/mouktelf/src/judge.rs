//! What both ends of a recorded connection do wrong: a test suite's, or a proxy's (docs/JUDGING.md says what is found).

use crate::{raw, Fault};

/// What a piece is: bytes of a direction, cut as you like; or that the connection is lent to somebody else, or closed.
#[derive(Clone, Copy, Debug)]
pub enum What<'a> {
    ToServer(&'a [u8]),
    ToClient(&'a [u8]),
    Borrowed,
    Closed,
}

/// A piece of a recorded connection, and its time in microseconds.
#[derive(Clone, Copy, Debug)]
pub struct Piece<'a> {
    pub time: u64,
    pub what: What<'a>,
}

/// What a judge goes by.
#[derive(Clone, Copy, Debug)]
pub struct Limits {
    /// How long a transaction may be idle, in microseconds; 0: as long as it likes.
    pub idle: u64,
    /// The most columns of a result, 4,096 at most.
    pub columns: u16,
    /// Whether the login acknowledged column encryption, and data classification of version 2.
    pub encryption: bool,
    pub ranks: bool,
}

impl Default for Limits {
    fn default() -> Limits {
        Limits { idle: 0, columns: 4096, encryption: false, ranks: false }
    }
}

/// MS-TDS forbids it; it is lawful, and loses work or an answer; or a note.
#[derive(Clone, Copy, PartialEq, Eq, Debug)]
pub enum Level {
    Breach,
    Risk,
    Note,
}

/// A finding by its number, 1 to 45.
#[derive(Clone, Copy, PartialEq, Eq, Debug)]
pub struct Finding {
    pub number: u8,
    pub level: Level,
    pub is_to_client: bool,
    /// The byte of its direction at which it is told, counted from 0.
    pub offset: u64,
    /// The time of its piece.
    pub time: u64,
    /// What goes with it, or 0.
    pub value: u64,
}

/// The findings of one connection, from its first piece to its last. `Fault::OutOfRange`: a result has at most 4,096 columns.
pub fn judge(limits: &Limits, pieces: &[Piece<'_>]) -> Result<Vec<Finding>, Fault> {
    let limits = raw::JudgeLimits { idle: limits.idle, columns: limits.columns, encryption: limits.encryption.into(), ranks: limits.ranks.into() };
    let (mut bytes, mut given) = (Vec::new(), Vec::with_capacity(pieces.len()));
    for piece in pieces {
        let (what, own): (u8, &[u8]) = match piece.what {
            What::ToServer(own) => (0, own),
            What::ToClient(own) => (1, own),
            What::Borrowed => (2, &[]),
            What::Closed => (3, &[]),
        };
        bytes.extend_from_slice(own);
        given.push(raw::JudgePiece { time: piece.time, length: own.len(), what });
    }
    let mut found = vec![raw::JudgeFinding::default(); 64];
    loop {
        let mut count = 0;
        // SAFETY: each pointer and length is that of one vector, and no two of them overlap.
        let answer = unsafe {
            raw::tds_judge(&limits, given.as_ptr(), given.len(), bytes.as_ptr(), bytes.len(), found.as_mut_ptr(), found.len(), &mut count)
        };
        match answer {
            0 => return Ok(found[..count].iter().map(finding).collect()),
            1 => found.resize(count, raw::JudgeFinding::default()),
            2 => return Err(Fault::OutOfRange),
            _ => return Err(Fault::NoMemory),
        }
    }
}

fn finding(it: &raw::JudgeFinding) -> Finding {
    let level = match it.level {
        0 => Level::Breach,
        1 => Level::Risk,
        _ => Level::Note,
    };
    Finding { number: it.number, level, is_to_client: it.direction == 1, offset: it.offset, time: it.time, value: it.value }
}
