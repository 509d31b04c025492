//! Schedules over links that bring a byte at a time, and with each call of their links failing in
//! turn.

use crate::carrier::{FailingCarrier, Plan};
use crate::folder::names_in;
use std::alloc::{AllocError, Global};
use std::{fs, io};
use tds_play::{Report, play, read_schedule, run_play};

/// Links that carry all that they are handed.
const SOUND: Plan = Plan {
    failing: None,
    most: 1_000_000,
    change: None,
};

/// Goes through a folder, and appends the name of each schedule. Whether each prints its text, and
/// loses one event where a call fails.
pub fn play_all(rt: &HostRuntime, folder: &str, text: &mut String) -> io::Result<bool> {
    let mut is_well = true;
    for name in names_in(rt, folder)?.iter() {
        match difference(rt, folder, name.as_str()) {
            Ok(None) => {
                text.push_str(name.as_str())?;
                text.push_str("\n")?;
                continue;
            }
            Ok(Some(what)) => eprintln!(rt; "{name}: {what}")?,
            Err(error) => eprintln!(rt; "{name}: {error}")?,
        }
        is_well = false;
    }
    Ok(is_well)
}

/// What of the runs of this schedule is not as it is to be: byte by byte it prints its text; with each
/// of its calls failing it loses one event, and the connection from there on.
fn difference(rt: &HostRuntime, folder: &str, name: &str) -> io::Result<Option<String>> {
    let alloc = rt.alloc();
    let schedule = fs::read(rt, format!(in alloc; "{folder}/{name}.json")?.as_str())?;
    let text = fs::read(rt, format!(in alloc; "{folder}/{name}.txt")?.as_str())?;
    let mut slow = FailingCarrier::new(alloc, Plan { most: 1, ..SOUND });
    if let Some(what) = difference_over(alloc, schedule.as_slice(), &mut slow, text.as_slice())? {
        return Ok(Some(format!(in alloc; "byte by byte: {what}")?));
    }
    let mut sound = FailingCarrier::new(alloc, SOUND);
    if let Some(what) = difference_over(alloc, schedule.as_slice(), &mut sound, text.as_slice())? {
        return Ok(Some(what));
    }
    match first_wrong_loss(alloc, schedule.as_slice(), sound.calls()) {
        Some(failing) => Ok(Some(format!(in alloc; "wrong losses with call {failing} failing")?)),
        None => Ok(None),
    }
}

/// The first call of so many whose failure loses another event than one, or more.
fn first_wrong_loss(alloc: Global, schedule: &[u8], calls: u32) -> Option<u32> {
    for failing in 1..=calls {
        let plan = Plan {
            failing: Some(failing),
            ..SOUND
        };
        if !loses_once(alloc, schedule, &mut FailingCarrier::new(alloc, plan)) {
            return Some(failing);
        }
    }
    None
}

fn loses_once(alloc: Global, schedule: &[u8], carrier: &mut FailingCarrier) -> bool {
    match played(alloc, schedule, carrier) {
        Some(report) => is_lost_once(&report, carrier.lost()),
        None => false,
    }
}

/// The report of a schedule over this carrier; None where there is none.
fn played(alloc: Global, schedule: &[u8], carrier: &mut FailingCarrier) -> Option<Report> {
    let (setup, events) = read_schedule(alloc, schedule).ok()?;
    play(alloc, &setup, events.as_slice(), carrier).ok()
}

/// Whether one call failed, one event is marked lost, and the connection of that call is shown in no
/// snapshot from that event on.
fn is_lost_once(report: &Report, lost: &[u32]) -> bool {
    let [conn] = lost else {
        return false;
    };
    let mut marked = 0u32;
    let mut is_shown = false;
    for event in report.events.as_slice() {
        if event.lost {
            marked = marked.saturating_add(1);
        }
        if marked > 0 {
            for snapshot in event.snapshots.as_slice() {
                is_shown |= snapshot.conn == *conn;
            }
        }
    }
    marked == 1 && !is_shown
}

/// What a run prints over this carrier; None where it ends with another status than 0.
pub fn printed(alloc: Global, schedule: &[u8], carrier: &mut FailingCarrier) -> Option<Vec<u8>> {
    let mut output = Vec::new(alloc);
    let mut errors = Vec::new(alloc);
    let mut reader = schedule;
    let status = run_play(alloc, &mut reader, carrier, &mut output, &mut errors);
    if status == 0 && errors.is_empty() {
        return Some(output);
    }
    None
}

/// What of the run over this carrier is not as the text has it.
fn difference_over(
    alloc: Global,
    schedule: &[u8],
    carrier: &mut FailingCarrier,
    text: &[u8],
) -> Result<Option<String>, AllocError> {
    match printed(alloc, schedule, carrier) {
        Some(output) => first_line(alloc, output.as_slice(), text),
        None => Ok(Some(String::from_str(alloc, "another status than 0")?)),
    }
}

/// The first line in which two texts differ.
pub fn first_line(
    alloc: Global,
    found: &[u8],
    wanted: &[u8],
) -> Result<Option<String>, AllocError> {
    if found == wanted {
        return Ok(None);
    }
    let mut place = 1u64;
    for (byte, other) in found.iter().zip(wanted.iter()) {
        if byte != other {
            break;
        }
        if *byte == b'\n' {
            place = place.saturating_add(1);
        }
    }
    Ok(Some(format!(in alloc; "line {place} is another")?))
}
