//! Feeds each vector to the end that it is for: cut and altered everywhere. What comes is compared
//! with what the tables of the wire say, and counted.

mod counts;
mod ends;
pub mod fault;
mod layout;
mod product;
mod setting;
mod trace;
mod vector;

use self::fault::SweepFault;
use self::setting::{SETTINGS, Setting};
use self::vector::{alterations, cuttings, data_fronts, fronts, lengths, values_at};
use std::alloc::Global;
use std::fmt::Write;
use tds_show::{VECTORS, Vector};
use tds_text::word_bytes;

/// Sweeps, and appends what came of it.
pub fn put(alloc: Global, text: &mut String) -> Result<(), SweepFault> {
    for (vector, setting) in VECTORS.iter().zip(SETTINGS.iter()) {
        sweep(alloc, text, vector, *setting)?;
    }
    attention(alloc, text)
}

fn bytes_of(alloc: Global, vector: &Vector<'_>) -> Result<Vec<u8>, SweepFault> {
    match word_bytes(alloc, vector.digits) {
        Ok(bytes) => Ok(bytes),
        Err(_) => Err(SweepFault::Setting),
    }
}

fn sweep(
    alloc: Global,
    text: &mut String,
    vector: &Vector<'_>,
    setting: Setting,
) -> Result<(), SweepFault> {
    let bytes = bytes_of(alloc, vector)?;
    let bytes = bytes.as_slice();
    writeln!(text, "{}", vector.name)?;
    fronts(alloc, setting, bytes)?.put(text, "fronts")?;
    data_fronts(alloc, setting, bytes)?.put(text, "fronts of the data")?;
    cuttings(alloc, setting, bytes)?.put(text, "cuttings")?;
    alterations(alloc, setting, bytes)?.put(text, "altered")?;
    Ok(())
}

/// The attention with each type, each status and each Length.
fn attention(alloc: Global, text: &mut String) -> Result<(), SweepFault> {
    let bytes = bytes_of(alloc, &VECTORS[2])?;
    let bytes = bytes.as_slice();
    writeln!(text, "V3 with each value")?;
    values_at(alloc, Setting::Waiting, bytes, 0)?.put(text, "types")?;
    values_at(alloc, Setting::Waiting, bytes, 1)?.put(text, "statuses")?;
    lengths(alloc, Setting::Waiting, bytes)?.put(text, "lengths")?;
    Ok(())
}
