//! All tests as one program, so that what they stand on is compiled once. The first word names what
//! runs; the others are its own.
//!
//! `tdsplay FILE..` plays schedules over memory, as the program does, and `explain FILE..` says what is
//! wrong with files, as `tdsview explain` does, one behind another: a line `ran FILE STATUS OUTPUT ERRORS`
//! tells what each came to and how many bytes it printed on both streams, and these follow.
#![tactic(auto)]

use std::alloc::{AllocError, Global};
use std::fs;
use std::io::{self, Write};
use std::process::ExitCode;
use tds_play::{MemoryCarrier, read_schedule, run_play, run_vectors};
use view_explain::{what_is_said, why_unplayed, why_unread};
use view_trace::play_kept;

fn main(rt: HostRuntime) -> ExitCode {
    match test_words::given(&rt) {
        Ok(words) => run(&rt, words.as_slice()),
        Err(status) => ExitCode::from(status),
    }
}

fn run(rt: &HostRuntime, words: &[String]) -> ExitCode {
    let Some((name, others)) = words.split_first() else {
        return ended(rt, Err(io::Error::from(io::ErrorKind::InvalidInput)));
    };
    match name.as_str() {
        "test_wire" => test_wire::run(rt, others),
        "test_calls" => test_calls::run(rt, others),
        "test_layers" => test_layers::run(rt, others),
        "test_listen" => test_listen::run(rt, others),
        "test_judge" => test_judge::run(rt, others),
        "test_relay" => test_relay::run(rt, others),
        "test_state" => test_state::run(rt, others),
        "bench_calls" => bench_calls::run(rt, others),
        "tdsplay" => ended(rt, play_all(rt, others)),
        "explain" => ended(rt, explain_all(rt, others)),
        "vectors" => ExitCode::from(run_vectors(rt.alloc(), &mut rt.stdout(), &mut rt.stderr())),
        _ => ended(rt, Err(io::Error::from(io::ErrorKind::InvalidInput))),
    }
}

fn ended(rt: &HostRuntime, done: io::Result<()>) -> ExitCode {
    match done {
        Ok(()) => ExitCode::SUCCESS,
        Err(error) => {
            let _ = eprintln!(rt; "error: {error}");
            ExitCode::FAILURE
        }
    }
}

/// Plays each schedule over memory.
fn play_all(rt: &HostRuntime, names: &[String]) -> io::Result<()> {
    let alloc = rt.alloc();
    for name in names {
        let mut output: Vec<u8> = Vec::new(alloc);
        let mut errors: Vec<u8> = Vec::new(alloc);
        let mut file = fs::open(rt, name.as_str())?;
        let mut carrier = MemoryCarrier::new(alloc);
        let status = run_play(alloc, &mut file, &mut carrier, &mut output, &mut errors);
        tell(
            rt,
            name.as_str(),
            status,
            output.as_slice(),
            errors.as_slice(),
        )?;
    }
    Ok(())
}

/// Says of each file what is wrong with it, or which of its events are refused.
fn explain_all(rt: &HostRuntime, names: &[String]) -> io::Result<()> {
    for name in names {
        let bytes = fs::read(rt, name.as_str())?;
        let (status, text) = explained(rt.alloc(), name.as_str(), bytes.as_slice())?;
        tell(rt, name.as_str(), status, text.as_bytes(), &[])?;
    }
    Ok(())
}

/// 1 where something is wrong or refused, and what is said of it.
fn explained(alloc: Global, name: &str, bytes: &[u8]) -> Result<(u8, String), AllocError> {
    let (setup, events) = match read_schedule(alloc, bytes) {
        Ok(read) => read,
        Err(fault) => return unplayed(why_unread(alloc, name, bytes, &fault)?),
    };
    let count = events.len();
    let Ok(exchange) = play_kept(alloc, setup, events) else {
        return unplayed(why_unplayed(alloc, name, bytes, setup, count)?);
    };
    let said = what_is_said(
        alloc,
        name,
        bytes,
        exchange.events.as_slice(),
        &exchange.report,
    )?;
    let mut text = said.refused;
    let status = u8::from(!text.is_empty());
    text.push_str(said.remarks.as_str())?;
    Ok((status, text))
}

fn unplayed(mut text: String) -> Result<(u8, String), AllocError> {
    text.push_str("\n")?;
    Ok((1, text))
}

fn tell(rt: &HostRuntime, name: &str, status: u8, output: &[u8], errors: &[u8]) -> io::Result<()> {
    println!(rt; "ran {name} {status} {} {}", output.len(), errors.len())?;
    rt.stdout().write_all(output)?;
    rt.stdout().write_all(errors)
}
