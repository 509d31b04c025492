//! Traces of plays over links that fail, or that bring less than is asked, each as a row of a file. A row is
//! one of `links`, but that its text is the trace.

use crate::carrier::{FailingCarrier, Plan};
use crate::links::parts;
use crate::schedules::first_line;
use std::alloc::{AllocError, Global};
use std::fmt::Write;
use std::{fs, io};
use tds_play::{play, read_schedule};
use tds_trace::{RecordingCarrier, put_trace};

/// Plays each row of a file, and appends how many there are. Whether each has its trace.
pub fn play_all(rt: &HostRuntime, file: &str, text: &mut String) -> io::Result<bool> {
    let rows = fs::read_to_string(rt, file)?;
    let mut count = 0u32;
    let mut is_well = true;
    for row in rows.as_str().split("\n= ").skip(1) {
        count = count.saturating_add(1);
        if let Some(what) = difference(rt.alloc(), row)? {
            eprintln!(rt; "{file}, row {count}: {what}")?;
            is_well = false;
        }
    }
    writeln!(text, "{file}: {count} rows")?;
    Ok(is_well)
}

/// What of a row's trace isn't as the row has it.
fn difference(alloc: Global, row: &str) -> Result<Option<String>, AllocError> {
    let Some((plan, schedule, wanted)) = parts(row) else {
        return Ok(Some(String::from_str(alloc, "no plan, or no text")?));
    };
    match traced(alloc, plan, schedule.as_bytes()) {
        None => Ok(Some(String::from_str(alloc, "no trace")?)),
        Some(text) => first_line(
            alloc,
            text.as_str().trim_end().as_bytes(),
            wanted.trim_end().as_bytes(),
        ),
    }
}

/// The trace of a play over links with this plan.
fn traced(alloc: Global, plan: Plan, schedule: &[u8]) -> Option<String> {
    let (setup, events) = read_schedule(alloc, schedule).ok()?;
    let mut carrier = RecordingCarrier::new(alloc, FailingCarrier::new(alloc, plan));
    let report = play(alloc, &setup, events.as_slice(), &mut carrier).ok()?;
    let calls = carrier.into_calls().ok()?;
    let mut text = String::new(alloc);
    put_trace(alloc, &mut text, &setup, &report, calls.as_slice()).ok()?;
    Some(text)
}
