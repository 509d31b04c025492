//! Plays scenes before any server: what comes of its bytes, in pieces of several sizes, is compared
//! with what a table says that was written by hand.
#![tactic(auto)]

mod asking;
mod exchanging;
mod fault;
mod player;
mod service;
mod table;
mod timing;
mod words;

use asking::repeat_asking;
use exchanging::repeat_exchanges;
use fault::SceneFault;
use player::Player;
use std::process::ExitCode;
use std::{fs, io};
use timing::time_hearing;

/// How many bytes a piece has.
const SIZES: [usize; 4] = [1, 3, 7, 4096];

/// Plays the scenes of the file that the first word names, with each size: whether all came out as
/// they are written. Or runs `time FILE PIECE TIMES`, `exchange TIMES` or `ask TIMES`.
pub fn run(rt: &HostRuntime, words: &[String]) -> ExitCode {
    match obey(rt, words) {
        Ok(true) => ExitCode::SUCCESS,
        Ok(false) => ExitCode::FAILURE,
        Err(error) => {
            let _ = eprintln!(rt; "error: {error}");
            ExitCode::FAILURE
        }
    }
}

/// Does what the words say. Whether all came out as it is written.
fn obey(rt: &HostRuntime, words: &[String]) -> io::Result<bool> {
    let Some((file, others)) = words.split_first() else {
        return Err(io::Error::from(io::ErrorKind::InvalidInput));
    };
    if file.as_str() == "time" {
        time_hearing(rt, others)?;
        return Ok(true);
    }
    if file.as_str() == "exchange" {
        repeat_exchanges(rt, others)?;
        return Ok(true);
    }
    if file.as_str() == "ask" {
        repeat_asking(rt, others)?;
        return Ok(true);
    }
    let text = fs::read_to_string(rt, file.as_str())?;
    let mut is_well = true;
    for size in SIZES.iter() {
        is_well &= play(rt, text.as_str(), *size)?;
    }
    print!(rt; "{}", service::play(rt.alloc())?)?;
    print!(rt; "{}", table::play(rt.alloc())?)?;
    Ok(is_well)
}

/// Plays all scenes in pieces of this size, and prints how many there are and of how many steps. Whether
/// each step came out as it is written.
fn play(rt: &HostRuntime, text: &str, size: usize) -> io::Result<bool> {
    let mut scenes = 0u32;
    let mut steps = 0u32;
    let mut is_well = true;
    let mut player = Player::new(rt.alloc())?;
    for line in text.lines() {
        if line.starts_with("scene ") {
            player = Player::new(rt.alloc())?;
            scenes = scenes.saturating_add(1);
            continue;
        }
        let Some((step, wanted)) = line.split_once(" = ") else {
            continue;
        };
        let found = player.step(rt.alloc(), step, size)?;
        if found.as_str() != wanted {
            eprintln!(rt; "{step} in pieces of {size}: {found}, and the table has {wanted}")?;
            is_well = false;
        }
        steps = steps.saturating_add(1);
    }
    println!(rt; "in pieces of {size}: {scenes} scenes, {steps} steps")?;
    Ok(is_well)
}
