//! Requests by their words.

use crate::case::Stop;
use crate::words::Words;
use std::alloc::Global;
use tds_request::{BatchText, Isolation, Request};

/// The request of these words: `begin LEVEL`, `batch TEXT`, `units BYTES`, `commit` and `rollback`,
/// each of them perhaps with the isolation level at which the next transaction begins.
pub fn request(alloc: Global, words: &mut Words<'_>) -> Result<Request, Stop> {
    match words.next() {
        "begin" => Ok(Request::Begin(level(words)?)),
        "commit" => Ok(Request::Commit(next_level(words)?)),
        "rollback" => Ok(Request::Rollback(next_level(words)?)),
        "batch" => batch(units(alloc, words.rest())?),
        "units" => batch(spelled_units(alloc, words)?),
        _ => Err(Stop::Unread),
    }
}

fn level(words: &mut Words<'_>) -> Result<Isolation, Stop> {
    match Isolation::new(words.small()?) {
        Some(level) => Ok(level),
        None => Err(Stop::Unlawful),
    }
}

fn next_level(words: &mut Words<'_>) -> Result<Option<Isolation>, Stop> {
    if words.rest().is_empty() {
        return Ok(None);
    }
    Ok(Some(level(words)?))
}

fn batch(units: Vec<u16>) -> Result<Request, Stop> {
    match BatchText::new(units) {
        Some(text) => Ok(Request::Batch(text)),
        None => Err(Stop::Unlawful),
    }
}

/// The units of an ASCII text.
pub fn units(alloc: Global, text: &str) -> Result<Vec<u16>, Stop> {
    let mut units = Vec::new(alloc);
    for byte in text.as_bytes() {
        units.push(u16::from(*byte))?;
    }
    Ok(units)
}

/// Units of which each is spelled by two bytes, the low one first.
fn spelled_units(alloc: Global, words: &mut Words<'_>) -> Result<Vec<u16>, Stop> {
    let mut bytes = Vec::new(alloc);
    words.bytes(&mut bytes)?;
    units_of(alloc, bytes.as_slice())
}

fn units_of(alloc: Global, bytes: &[u8]) -> Result<Vec<u16>, Stop> {
    let mut units = Vec::new(alloc);
    for pair in bytes.chunks(2) {
        if let [low, high] = pair {
            units.push(u16::from_le_bytes([*low, *high]))?;
        }
    }
    Ok(units)
}
