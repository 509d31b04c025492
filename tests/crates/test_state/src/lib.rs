//! Tracks connections whose bytes were written by hand: whether each rests where the file says, in pieces
//! of several sizes.
#![tactic(auto)]

mod follower;

use follower::Follower;
use std::process::ExitCode;
use std::{fs, io};
use tds_state::Reason;

/// How many bytes a piece has.
const SIZES: [usize; 4] = [1, 3, 7, 4096];

/// Follows the cases of the files that the words name, with each size: whether all came out as they are
/// written.
pub fn run(rt: &HostRuntime, words: &[String]) -> ExitCode {
    match obey(rt, words) {
        Ok(true) => ExitCode::SUCCESS,
        Ok(false) => ExitCode::FAILURE,
        Err(error) => {
            let _ = eprintln!(rt; "error: {error}");
            ExitCode::FAILURE
        }
    }
}

fn obey(rt: &HostRuntime, words: &[String]) -> io::Result<bool> {
    let mut is_well = true;
    for file in words {
        let text = fs::read_to_string(rt, file.as_str())?;
        for size in SIZES.iter() {
            is_well &= follow(rt, text.as_str(), *size)?;
        }
    }
    Ok(is_well)
}

/// The step of a line, if it has one: `greeted` stands for the newest greeting.
fn step_of<'a>(line: &'a str, greeting: &'a str) -> Option<&'a str> {
    if line.is_empty() || line.starts_with("#") || line.starts_with("greeting ") {
        return None;
    }
    Some(if line == "greeted" { greeting } else { line })
}

/// Whether this is the word for why a connection doesn't rest.
fn is_said(rt: &HostRuntime, reason: Option<Reason>, word: &str) -> io::Result<bool> {
    match reason {
        Some(reason) => Ok(format!(in rt.alloc(); "{reason:?}")?.as_str() == word),
        None => Ok(false),
    }
}

/// Does a step, or asks. Whether it can be done, or the answer is the one that is written.
fn is_as_written(
    rt: &HostRuntime,
    follower: &mut Follower,
    line: &str,
    size: usize,
) -> io::Result<bool> {
    match (line, line.strip_prefix("because ")) {
        ("rests", _) => Ok(follower.rests()),
        ("holds", _) => Ok(!follower.rests()),
        (_, Some(word)) => is_said(rt, follower.why(), word),
        (step, None) => Ok(follower.step(rt.alloc(), step, size)?.is_ok()),
    }
}

/// Follows all cases in pieces of this size, and prints how many there are and how often they ask whether the
/// connection rests. Whether each answer is the one that is written.
fn follow(rt: &HostRuntime, text: &str, size: usize) -> io::Result<bool> {
    let mut cases = 0u32;
    let mut questions = 0u32;
    let mut is_well = true;
    let mut name = "";
    let mut greeting = "";
    let mut follower = Follower::new(rt.alloc())?;
    for line in text.lines() {
        if let Some(new) = line.strip_prefix("case ") {
            follower = Follower::new(rt.alloc())?;
            cases = cases.saturating_add(1);
            name = new;
            continue;
        }
        greeting = line.strip_prefix("greeting ").unwrap_or(greeting);
        let Some(line) = step_of(line, greeting) else {
            continue;
        };
        if let "rests" | "holds" = line {
            questions = questions.saturating_add(1);
        }
        if !is_as_written(rt, &mut follower, line, size)? {
            eprintln!(rt; "{name}, in pieces of {size}, question {questions}: not {line}")?;
            is_well = false;
        }
    }
    println!(rt; "in pieces of {size}: {cases} cases, {questions} questions")?;
    Ok(is_well)
}
