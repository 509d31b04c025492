//! An answer through the parser, and the lines that it tells.

use crate::values::put_values;
use crate::vector::Detail;
use std::alloc::AllocError;
use tds_wire::{Change, Done, Refusal, Token, TokenParser, Told, WireFault};

/// In which pieces an answer is handed in.
#[derive(Clone, Copy)]
pub(crate) enum Pieces {
    /// Two, the first one of so many bytes.
    Two(usize),
    /// Of so many bytes each.
    Each(usize),
}

/// Puts the lines of an answer, a message of its own.
pub(crate) fn put_told(
    parser: &mut TokenParser,
    bytes: &[u8],
    pieces: Pieces,
    detail: Detail,
    text: &mut String,
) -> Result<(), AllocError> {
    parser.restart();
    let is_sound = match pieces {
        Pieces::Two(count) => take_both(parser, bytes, count, detail, text)?,
        Pieces::Each(size) => take_each(parser, bytes, size, detail, text)?,
    };
    if is_sound {
        let is_whole = parser.is_between();
        text.push_str(if is_whole { "end\n" } else { "cut\n" })?;
    }
    Ok(())
}

/// Hands in two pieces. Whether no fault came.
fn take_both(
    parser: &mut TokenParser,
    bytes: &[u8],
    count: usize,
    detail: Detail,
    text: &mut String,
) -> Result<bool, AllocError> {
    let (first, second) = bytes.split_at(count.min(bytes.len()));
    Ok(take(parser, first, detail, text)? && take(parser, second, detail, text)?)
}

/// Hands in pieces of so many bytes. Whether no fault came.
fn take_each(
    parser: &mut TokenParser,
    bytes: &[u8],
    size: usize,
    detail: Detail,
    text: &mut String,
) -> Result<bool, AllocError> {
    let mut rest = bytes;
    for _ in 0..bytes.len() {
        let (piece, others) = rest.split_at(size.min(rest.len()));
        if !take(parser, piece, detail, text)? {
            return Ok(false);
        }
        rest = others;
        if rest.is_empty() {
            break;
        }
    }
    Ok(true)
}

/// Hands in a piece. Whether no fault came.
fn take(
    parser: &mut TokenParser,
    piece: &[u8],
    detail: Detail,
    text: &mut String,
) -> Result<bool, AllocError> {
    let mut rest = piece;
    for _ in 0..piece.len() {
        match parser.feed(rest) {
            Ok(fed) => {
                if let Some(token) = fed.token {
                    put_token(token, detail, text)?;
                }
                rest = rest.get(fed.count..).unwrap_or(&[]);
            }
            Err(refusal) => {
                put_refusal(refusal, text)?;
                return Ok(false);
            }
        }
        if rest.is_empty() {
            break;
        }
    }
    Ok(true)
}

/// Puts a token's line: its place, its first byte, its length, and what it tells.
fn put_token(token: Token, detail: Detail, text: &mut String) -> Result<(), AllocError> {
    let Token {
        kind,
        start,
        length,
        told,
    } = token;
    write!(text, "{start} {kind:02X} {length}")?;
    match detail {
        Detail::Ends => {}
        Detail::All => put_some(told, text)?,
        Detail::Values => put_values(told, text)?,
    }
    text.push_str("\n")
}

/// Puts what a DONE tells, and the type of an ENVCHANGE.
fn put_some(told: Told, text: &mut String) -> Result<(), AllocError> {
    match told {
        Told::Done(done) => put_done(done, text),
        Told::Change(change) => put_change(change, text),
        _ => Ok(()),
    }
}

/// Puts what a DONE tells.
pub(crate) fn put_done(done: Done, text: &mut String) -> Result<(), AllocError> {
    let Done {
        status,
        command,
        count,
    } = done;
    write!(text, " {status:04X} {command} {count}")
}

/// Puts what an ENVCHANGE tells.
fn put_change(change: Change, text: &mut String) -> Result<(), AllocError> {
    let kind = change.kind;
    write!(text, " {kind}")
}

/// Puts the line of a fault.
fn put_refusal(refusal: Refusal, text: &mut String) -> Result<(), AllocError> {
    let at = refusal.at;
    let words = match refusal.fault {
        WireFault::UnknownToken => "unknown token",
        WireFault::NoColumns => "no columns",
        WireFault::UnknownType => "unknown type",
        WireFault::ManyColumns => "many columns",
    };
    writeln!(text, "fault {words} at {at}")
}
