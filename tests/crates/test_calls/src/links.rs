//! Plays over links that fail, or that change a byte, each as a row of a file. A row has a line
//! `= NAME`; a line with the plan of its links, as `failing 3`, `most 40` (bytes that a call brings) or
//! `change to_client 19 62` (the place among all bytes of connection 1 and the byte, in decimal and in
//! hexadecimal); the schedule; a line `-`; and what is printed, with a last line that says how many
//! calls of the links there were and the connection of each that failed.

use crate::carrier::{FailingCarrier, Plan};
use crate::lane::Change;
use crate::schedules::{first_line, printed};
use std::alloc::{AllocError, Global};
use std::fmt::Write;
use std::{fs, io};
use tds_packet::Direction;

/// Plays each row of a file, and appends how many there are. Whether each prints its text.
pub fn play_all(rt: &HostRuntime, file: &str, text: &mut String) -> io::Result<bool> {
    let rows = fs::read_to_string(rt, file)?;
    let mut count = 0u32;
    let mut is_well = true;
    for row in rows.as_str().split("\n= ").skip(1) {
        count = count.saturating_add(1);
        if let Some(what) = difference(rt.alloc(), row)? {
            eprintln!(rt; "{file}, row {count}: {what}")?;
            is_well = false;
        }
    }
    writeln!(text, "{file}: {count} rows")?;
    Ok(is_well)
}

/// What of a row's run isn't as the row has it.
fn difference(alloc: Global, row: &str) -> Result<Option<String>, AllocError> {
    let Some((plan, schedule, wanted)) = parts(row) else {
        return Ok(Some(String::from_str(alloc, "no plan, or no text")?));
    };
    let mut carrier = FailingCarrier::new(alloc, plan);
    let Some(mut found) = printed(alloc, schedule.as_bytes(), &mut carrier) else {
        return Ok(Some(String::from_str(alloc, "another status than 0")?));
    };
    put_calls(alloc, &carrier, &mut found)?;
    first_line(alloc, found.as_slice(), wanted.trim_end().as_bytes())
}

/// The plan, the schedule and the text of a row.
pub(crate) fn parts(row: &str) -> Option<(Plan, &str, &str)> {
    let (_, rest) = row.split_once('\n')?;
    let (line, rest) = rest.split_once('\n')?;
    let (schedule, text) = rest.split_once("\n-\n")?;
    Some((plan_of(line)?, schedule, text))
}

/// The plan that a line says.
fn plan_of(line: &str) -> Option<Plan> {
    let mut plan = Plan {
        failing: None,
        most: 10_000,
        change: None,
    };
    let mut words = line.split(' ');
    for _ in 0..3 {
        match words.next() {
            Some("failing") => plan.failing = Some(words.next()?.parse::<u32>().ok()?),
            Some("most") => plan.most = words.next()?.parse::<usize>().ok()?,
            Some("change") => plan.change = Some(change_of(line.split_once("change ")?.1)?),
            _ => break,
        }
    }
    Some(plan)
}

/// A change of a byte of connection 1.
fn change_of(text: &str) -> Option<(u32, Direction, Change)> {
    let (way, rest) = text.split_once(' ')?;
    let (place, byte) = rest.split_once(' ')?;
    let direction = match way {
        "to_server" => Direction::ToServer,
        "to_client" => Direction::ToClient,
        _ => return None,
    };
    let change = Change {
        place: place.parse::<usize>().ok()?,
        byte: u8::from_str_radix(byte, 16).ok()?,
    };
    Some((1, direction, change))
}

/// Appends how many calls there were, and the connection of each that failed.
fn put_calls(alloc: Global, carrier: &FailingCarrier, out: &mut Vec<u8>) -> Result<(), AllocError> {
    let line = format!(in alloc; "calls {}, lost {:?}", carrier.calls(), carrier.lost())?;
    out.extend_from_slice(line.as_bytes())
}
