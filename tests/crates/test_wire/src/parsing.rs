//! The file of answers.

use crate::vector::{Counted, Last, Length, Line, Vector};
use std::alloc::{AllocError, Global};
use tds_wire::Features;

/// The answers of a file's text. Words that can't be read are left out, so that their answer comes out wrong.
pub(crate) fn read_vectors(alloc: Global, text: &str) -> Result<Vec<Vector>, AllocError> {
    let mut vectors: Vec<Vector> = Vec::new(alloc);
    let mut is_wanted = false;
    for line in text.lines() {
        if let Some(name) = line.strip_prefix("= ") {
            vectors.push(new_vector(alloc, name)?)?;
            is_wanted = false;
        } else if line.is_empty() || line.starts_with("#") || line.starts_with(":") {
            continue;
        } else if line == "-" {
            is_wanted = true;
        } else if let Some(vector) = vectors.as_mut_slice().last_mut() {
            match is_wanted {
                true => take_wanted(alloc, vector, line)?,
                false => take_bytes(alloc, vector, line)?,
            }
        }
    }
    Ok(vectors)
}

/// An answer of no bytes, by its name and what its login agreed on.
fn new_vector(alloc: Global, line: &str) -> Result<Vector, AllocError> {
    let (name, agreed) = line.split_once(" with ").unwrap_or((line, ""));
    Ok(Vector {
        name: String::from_str(alloc, name)?,
        features: features_of(agreed),
        bytes: Vec::new(alloc),
        lengths: Vec::new(alloc),
        lines: Vec::new(alloc),
        last: Last::End,
    })
}

/// What a login agreed on.
pub(crate) fn features_of(agreed: &str) -> Features {
    Features {
        encryption: agreed == "encryption",
        ranks: agreed == "classification 2",
    }
}

/// Takes a line of an answer's bytes.
fn take_bytes(alloc: Global, vector: &mut Vector, line: &str) -> Result<(), AllocError> {
    let mut width = 0;
    for word in line.split_whitespace() {
        let first = vector.bytes.len();
        match word {
            "(" => open(vector, width, Counted::Bytes)?,
            "[" => open(vector, width, Counted::Units)?,
            "{" => open(vector, width, Counted::Things)?,
            ")" | "]" | "}" => close(vector),
            field => put_field(alloc, &mut vector.bytes, field)?,
        }
        width = vector.bytes.len().saturating_sub(first);
    }
    Ok(())
}

/// The last of the lengths whose bytes have no end yet.
fn last_open(lengths: &[Length]) -> Option<usize> {
    let mut found = None;
    for (place, length) in lengths.iter().enumerate() {
        if length.behind == usize::MAX {
            found = Some(place);
        }
    }
    found
}

/// Begins what the number of so many bytes counts that came last.
fn open(vector: &mut Vector, width: usize, counted: Counted) -> Result<(), AllocError> {
    let outer = last_open(vector.lengths.as_slice());
    let place = vector.bytes.len().saturating_sub(width);
    vector.lengths.push(Length {
        place,
        width,
        behind: usize::MAX,
        counted,
        outer,
    })?;
    Ok(())
}

/// Ends what is counted.
fn close(vector: &mut Vector) {
    let behind = vector.bytes.len();
    if let Some(place) = last_open(vector.lengths.as_slice()) {
        if let Some(length) = vector.lengths.as_mut_slice().get_mut(place) {
            length.behind = behind;
        }
    }
}

/// Puts a field's bytes, as often as the number behind a `*` says.
fn put_field(alloc: Global, bytes: &mut Vec<u8>, field: &str) -> Result<(), AllocError> {
    let (digits, times) = field.split_once("*").unwrap_or((field, "1"));
    let Ok(once) = hex::decode(alloc, digits) else {
        return Ok(());
    };
    for _ in 0..number_of(times) {
        bytes.extend_from_slice(once.as_slice())?;
    }
    Ok(())
}

/// A decimal number, 0 where it is none.
fn number_of(word: &str) -> usize {
    word.parse::<usize>().unwrap_or(0)
}

/// Takes a line of what is wanted.
fn take_wanted(alloc: Global, vector: &mut Vector, line: &str) -> Result<(), AllocError> {
    if line == "end" {
        vector.last = Last::End;
    } else if line == "cut" {
        vector.last = Last::Cut;
    } else if let Some(fault) = line.strip_prefix("fault ") {
        let (words, at) = fault.split_once(" at ").unwrap_or((fault, "0"));
        let words = String::from_str(alloc, words)?;
        let at = number_of(at);
        vector.last = Last::Fault { words, at };
    } else {
        let token = token_of(alloc, line)?;
        vector.lines.push(token)?;
    }
    Ok(())
}

/// A token of what is wanted: its place, its first byte, its length, and what is told of it.
fn token_of(alloc: Global, line: &str) -> Result<Line, AllocError> {
    let (start, rest) = line.split_once(" ").unwrap_or((line, ""));
    let (kind, rest) = rest.split_once(" ").unwrap_or((rest, ""));
    let (length, more) = rest.split_once(" ").unwrap_or((rest, ""));
    let mut told = String::new(alloc);
    if !more.is_empty() {
        told.push_str(" ")?;
        told.push_str(more)?;
    }
    Ok(Line {
        start: number_of(start),
        kind: String::from_str(alloc, kind)?,
        length: number_of(length),
        more: told,
    })
}
