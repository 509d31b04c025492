//! Plays scripts of calls against each layer below the player. The words are the scripts' files. For
//! each file a line tells how many cases and calls it has; each call that answers otherwise than its
//! line says is told on the error output, by its file and line.
#![tactic(auto)]

mod asks;
mod case;
mod client;
mod counting;
mod ends;
mod packets;
mod requests;
mod said;
mod server;
mod session;
mod spelling;
mod tokens;
mod words;
mod written;

use case::{Case, Name, Stop, Tally};
use said::Said;
use std::alloc::Global;
use std::process::ExitCode;
use std::{fs, io};

/// Plays each file that the words name.
pub fn run(rt: &HostRuntime, words: &[String]) -> ExitCode {
    match obey(rt, words) {
        Ok(true) => ExitCode::SUCCESS,
        Ok(false) => ExitCode::FAILURE,
        Err(error) => {
            let _ = eprintln!(rt; "error: {error}");
            ExitCode::FAILURE
        }
    }
}

/// Plays each file. Whether each call answered what its line says.
fn obey(rt: &HostRuntime, files: &[String]) -> io::Result<bool> {
    let mut is_well = true;
    for file in files {
        is_well &= play(rt, file.as_str())?;
    }
    Ok(is_well)
}

/// Plays a file, and tells of it.
fn play(rt: &HostRuntime, file: &str) -> io::Result<bool> {
    let text = fs::read_to_string(rt, file)?;
    let mut tally = Tally::new(rt.alloc());
    if play_all(rt.alloc(), text.as_str(), &mut tally).is_err() {
        eprintln!(rt;
            "{file}: no memory, or no such layer at line {}",
            tally.line
        )?;
        return Ok(false);
    }
    println!(rt; "{file}: {} cases, {} calls", tally.cases, tally.calls)?;
    for wrong in tally.wrong.as_str().lines() {
        eprintln!(rt; "{file}:{wrong}")?;
    }
    Ok(tally.wrong.is_empty())
}

/// Plays the cases of a text. What stands before the first of them gives names.
fn play_all(alloc: Global, text: &str, tally: &mut Tally) -> Result<(), Stop> {
    let mut names = Vec::new(alloc);
    let mut said = Said::new(alloc);
    let mut is_head = true;
    for part in text.split("\n= ") {
        if is_head {
            case::read_names(alloc, part, &mut names, tally)?;
            is_head = false;
        } else {
            play_part(alloc, part, names.as_slice(), &mut said, tally)?;
        }
    }
    Ok(())
}

/// Plays a case: its first line has its layer and its name.
fn play_part(
    alloc: Global,
    part: &str,
    names: &[Name],
    said: &mut Said,
    tally: &mut Tally,
) -> Result<(), Stop> {
    tally.begin();
    let Some((head, text)) = part.split_once('\n') else {
        return Err(Stop::Unread);
    };
    let Some((layer, _)) = head.split_once(": ") else {
        return Err(Stop::Unread);
    };
    let mut case = Case {
        text,
        names,
        said,
        tally,
    };
    play_layer(alloc, layer, &mut case)
}

/// Plays a case on what its layer has.
fn play_layer(alloc: Global, layer: &str, case: &mut Case<'_>) -> Result<(), Stop> {
    match layer {
        "packets" => packets::play(alloc, case),
        "tokens" => tokens::play(alloc, case),
        "written tokens" => written::play(alloc, case),
        "requests" => requests::play(alloc, case),
        "client" => client::play(alloc, case),
        "ends" => ends::play(alloc, case),
        "session" | "counting session" => session::play(alloc, layer, case),
        _ => server::play(alloc, layer, case),
    }
}
