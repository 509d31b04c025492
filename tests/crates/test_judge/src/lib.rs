//! Judges captures that were written by hand, in pieces of several sizes: what is found is compared with
//! what the file says.
#![tactic(auto)]

mod player;
mod timing;

use player::Player;
use std::process::ExitCode;
use std::{fs, io};
use timing::time_judging;

/// How many bytes a piece has.
const SIZES: [usize; 4] = [1, 3, 7, 4096];

/// Judges the captures of the file that the first word names, with each size: whether all came out as
/// they are written. Or runs `time FILE PIECE TIMES`.
pub fn run(rt: &HostRuntime, words: &[String]) -> ExitCode {
    match obey(rt, words) {
        Ok(true) => ExitCode::SUCCESS,
        Ok(false) => ExitCode::FAILURE,
        Err(error) => {
            let _ = eprintln!(rt; "error: {error}");
            ExitCode::FAILURE
        }
    }
}

/// Does what the words say. Whether all came out as it is written.
fn obey(rt: &HostRuntime, words: &[String]) -> io::Result<bool> {
    let [file, others @ ..] = words else {
        return Err(io::Error::from(io::ErrorKind::InvalidInput));
    };
    if file.as_str() == "time" {
        time_judging(rt, others)?;
        return Ok(true);
    }
    let text = fs::read_to_string(rt, file.as_str())?;
    let mut is_well = true;
    for size in SIZES.iter() {
        is_well &= judge_all(rt, text.as_str(), *size)?;
    }
    Ok(is_well)
}

/// Judges all captures in pieces of this size, and prints how many there are. Whether each came out as it
/// is written.
fn judge_all(rt: &HostRuntime, text: &str, size: usize) -> io::Result<bool> {
    let mut captures = 0u32;
    let mut is_well = true;
    let mut name = "";
    let mut player = Player::new(rt.alloc())?;
    for line in text.lines() {
        if line.starts_with("= ") {
            name = line;
            player = Player::new(rt.alloc())?;
            captures = captures.saturating_add(1);
        } else if line.starts_with("found") {
            is_well &= player.compare(rt, name, line)?;
        } else if line != "" && !line.starts_with("#") {
            player.take_line(rt.alloc(), line, size)?;
        }
    }
    println!(rt; "in pieces of {size}: {captures} captures")?;
    Ok(is_well)
}
