//! The sweeps of one vector.

use super::counts::Counts;
use super::fault::SweepFault;
use super::product::fed;
use super::setting::Setting;
use std::alloc::Global;

/// Feeds pieces, and compares what comes of them with what the tables say of the whole.
fn try_case(
    alloc: Global,
    setting: Setting,
    pieces: &[&[u8]],
    whole: &[u8],
    counts: &mut Counts,
) -> Result<(), SweepFault> {
    let mut end = setting.end(alloc)?;
    let found = fed(alloc, &mut end, pieces)?;
    let expected = setting.expected(alloc, whole)?;
    counts.add(&found, &expected);
    Ok(())
}

/// Every front of the bytes.
pub fn fronts(alloc: Global, setting: Setting, bytes: &[u8]) -> Result<Counts, SweepFault> {
    let mut counts = Counts::new();
    for length in 0..bytes.len() {
        let front = &bytes[..length];
        try_case(alloc, setting, &[front], front, &mut counts)?;
    }
    Ok(counts)
}

/// Every front of the data, in a packet of its own: the Length counts it.
pub fn data_fronts(alloc: Global, setting: Setting, bytes: &[u8]) -> Result<Counts, SweepFault> {
    let mut counts = Counts::new();
    for length in 8..bytes.len() {
        let mut packet = Vec::from_slice(alloc, &bytes[..length])?;
        if let Some(low) = packet.get_mut(3) {
            *low = (length % 256) as u8;
        }
        let whole = packet.as_slice();
        try_case(alloc, setting, &[whole], whole, &mut counts)?;
    }
    Ok(counts)
}

/// Every cutting into three pieces, of which some may be empty.
pub fn cuttings(alloc: Global, setting: Setting, bytes: &[u8]) -> Result<Counts, SweepFault> {
    let mut counts = Counts::new();
    for second in 0..=bytes.len() {
        let (front, last) = bytes.split_at(second);
        for first in 0..=front.len() {
            let (begin, middle) = front.split_at(first);
            try_case(alloc, setting, &[begin, middle, last], bytes, &mut counts)?;
        }
    }
    Ok(counts)
}

/// Every byte replaced by each other value.
pub fn alterations(alloc: Global, setting: Setting, bytes: &[u8]) -> Result<Counts, SweepFault> {
    let mut counts = Counts::new();
    let mut altered = Vec::from_slice(alloc, bytes)?;
    for (place, byte) in bytes.iter().enumerate() {
        for value in 0..=255u8 {
            if value == *byte {
                continue;
            }
            put_at(&mut altered, place, value);
            let whole = altered.as_slice();
            try_case(alloc, setting, &[whole], whole, &mut counts)?;
        }
        put_at(&mut altered, place, *byte);
    }
    Ok(counts)
}

/// One byte replaced by each of the 256 values.
pub fn values_at(
    alloc: Global,
    setting: Setting,
    bytes: &[u8],
    place: usize,
) -> Result<Counts, SweepFault> {
    let mut counts = Counts::new();
    let mut altered = Vec::from_slice(alloc, bytes)?;
    for value in 0..=255u8 {
        put_at(&mut altered, place, value);
        let whole = altered.as_slice();
        try_case(alloc, setting, &[whole], whole, &mut counts)?;
    }
    Ok(counts)
}

/// Each Length from `0000` to `FFFF`.
pub fn lengths(alloc: Global, setting: Setting, bytes: &[u8]) -> Result<Counts, SweepFault> {
    let mut counts = Counts::new();
    let mut altered = Vec::from_slice(alloc, bytes)?;
    for high in 0..=255u8 {
        put_at(&mut altered, 2, high);
        for low in 0..=255u8 {
            put_at(&mut altered, 3, low);
            let whole = altered.as_slice();
            try_case(alloc, setting, &[whole], whole, &mut counts)?;
        }
    }
    Ok(counts)
}

fn put_at(bytes: &mut Vec<u8>, place: usize, value: u8) {
    if let Some(byte) = bytes.get_mut(place) {
        *byte = value;
    }
}
