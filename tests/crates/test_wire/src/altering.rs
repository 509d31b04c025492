//! An answer of which one length was altered.

use crate::vector::{Counted, Length, Vector};
use std::alloc::{AllocError, Global};

/// How a length is altered.
#[derive(Clone, Copy, Debug, PartialEq, Eq)]
pub(crate) enum Alteration {
    /// One more, and one more of what it counts.
    Longer,
    /// One less, and one less of what it counts.
    Shorter,
    /// One more alone.
    Lying,
    /// The most that isn't null, which is more than there is.
    Endless,
}

/// A byte that is put in.
const FILLING: u8 = 0x5A;

impl Alteration {
    pub(crate) const ALL: [Alteration; 4] = [
        Alteration::Longer,
        Alteration::Shorter,
        Alteration::Lying,
        Alteration::Endless,
    ];

    pub(crate) fn words(self) -> &'static str {
        match self {
            Alteration::Longer => "longer",
            Alteration::Shorter => "shorter",
            Alteration::Lying => "lying",
            Alteration::Endless => "endless",
        }
    }
}

/// The answer's bytes with this length altered; None where it can't be so.
pub(crate) fn altered(
    alloc: Global,
    vector: &Vector,
    length: Length,
    how: Alteration,
) -> Result<Option<Vec<u8>>, AllocError> {
    let mut bytes = Vec::new(alloc);
    bytes.extend_from_slice(vector.bytes.as_slice())?;
    let unit = length.counted.bytes();
    let is_altered = match how {
        Alteration::Longer => unit > 0 && raise_all(vector, length, bytes.as_mut_slice()),
        Alteration::Shorter => unit > 0 && lower_all(vector, length, bytes.as_mut_slice()),
        Alteration::Lying => raise(bytes.as_mut_slice(), length, 1),
        Alteration::Endless => make_endless(vector, length, bytes.as_mut_slice()),
    };
    if !is_altered {
        return Ok(None);
    }
    match how {
        Alteration::Longer => Ok(Some(with_more(alloc, bytes.as_slice(), length, unit)?)),
        Alteration::Shorter => Ok(Some(with_less(alloc, bytes.as_slice(), length, unit)?)),
        _ => Ok(Some(bytes)),
    }
}

/// Whether it stands inside of bytes that another length counts, so that it doesn't say where its token ends.
pub(crate) fn is_covered(vector: &Vector, length: Length) -> bool {
    let mut outer = length.outer;
    for _ in 0..vector.lengths.len() {
        let Some(found) = outer_of(vector, outer) else {
            break;
        };
        if found.counted == Counted::Bytes {
            return true;
        }
        outer = found.outer;
    }
    false
}

fn outer_of(vector: &Vector, outer: Option<usize>) -> Option<Length> {
    vector.lengths.get(outer?).copied()
}

/// The largest number of so many bytes.
fn largest(width: usize) -> u64 {
    match width {
        1 => 0xFF,
        2 => 0xFFFF,
        _ => 0xFFFF_FFFF,
    }
}

/// A length's number.
fn number_at(bytes: &[u8], length: Length) -> u64 {
    let mut number = 0u64;
    for place in (0..length.width).rev() {
        let byte = bytes.get(length.place.saturating_add(place)).copied();
        number = number.wrapping_mul(256) | u64::from(byte.unwrap_or(0));
    }
    number
}

fn put_number(bytes: &mut [u8], length: Length, number: u64) {
    let mut rest = number;
    for place in 0..length.width {
        if let Some(byte) = bytes.get_mut(length.place.saturating_add(place)) {
            *byte = (rest % 256) as u8;
        }
        rest /= 256;
    }
}

/// Raises a length. Not to all ones, which says null.
fn raise(bytes: &mut [u8], length: Length, more: u64) -> bool {
    let number = number_at(bytes, length).saturating_add(more);
    if number >= largest(length.width) {
        return false;
    }
    put_number(bytes, length, number);
    true
}

/// Lowers a length. Not to no bytes, which says the end of parts, or null.
fn lower(bytes: &mut [u8], length: Length, less: u64) -> bool {
    let number = number_at(bytes, length);
    if number < less || (length.counted == Counted::Bytes && number <= less) {
        return false;
    }
    put_number(bytes, length, number.saturating_sub(less));
    true
}

/// Raises a length by one, and those that count its bytes too.
fn raise_all(vector: &Vector, length: Length, bytes: &mut [u8]) -> bool {
    let unit = length.counted.bytes() as u64;
    let mut outer = length.outer;
    let mut is_raised = raise(bytes, length, 1);
    for _ in 0..vector.lengths.len() {
        let Some(found) = outer_of(vector, outer) else {
            break;
        };
        if found.counted == Counted::Bytes {
            is_raised &= raise(bytes, found, unit);
        }
        outer = found.outer;
    }
    is_raised
}

/// Lowers a length by one, and those that count its bytes too.
fn lower_all(vector: &Vector, length: Length, bytes: &mut [u8]) -> bool {
    let unit = length.counted.bytes() as u64;
    let mut outer = length.outer;
    let mut is_lowered = lower(bytes, length, 1);
    for _ in 0..vector.lengths.len() {
        let Some(found) = outer_of(vector, outer) else {
            break;
        };
        if found.counted == Counted::Bytes {
            is_lowered &= lower(bytes, found, unit);
        }
        outer = found.outer;
    }
    is_lowered
}

/// Says more bytes than there are. Only a length that says where its token ends.
fn make_endless(vector: &Vector, length: Length, bytes: &mut [u8]) -> bool {
    let unit = length.counted.bytes() as u64;
    let most = largest(length.width).saturating_sub(1);
    let all = vector.bytes.len() as u64;
    if most.saturating_mul(unit) <= all || is_covered(vector, length) {
        return false;
    }
    put_number(bytes, length, most);
    true
}

fn with_more(
    alloc: Global,
    bytes: &[u8],
    length: Length,
    unit: usize,
) -> Result<Vec<u8>, AllocError> {
    let (front, rest) = bytes.split_at(length.behind.min(bytes.len()));
    let mut all = Vec::new(alloc);
    all.extend_from_slice(front)?;
    for _ in 0..unit {
        all.push(FILLING)?;
    }
    all.extend_from_slice(rest)?;
    Ok(all)
}

fn with_less(
    alloc: Global,
    bytes: &[u8],
    length: Length,
    unit: usize,
) -> Result<Vec<u8>, AllocError> {
    let (front, rest) = bytes.split_at(length.behind.min(bytes.len()));
    let (front, _) = front.split_at(front.len().saturating_sub(unit));
    let mut all = Vec::new(alloc);
    all.extend_from_slice(front)?;
    all.extend_from_slice(rest)?;
    Ok(all)
}
