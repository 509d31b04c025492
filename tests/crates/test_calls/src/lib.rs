//! What of the tests must call the crates, since no script of calls and no run of a built program can
//! say it. The words are parts, done in their order, and what comes of each is printed:
//!
//! - `all`, `names`, or a call's name: calls that may want memory (`refusals`);
//! - `sweeps`: each known packet, cut and altered everywhere;
//! - `streams`: a request of 10 MB that goes out in parts, and comes in whole;
//! - `leases`: the pool, whose leases must be spent;
//! - `links`: plays over links that fail, or that change a byte;
//! - `traces`: the traces of such plays;
//! - `schedules`: each schedule byte by byte, and with each call of its links failing in turn;
//! - `texts`: reports that no play comes to, and schedules as events;
//! - `sockets`: the carrier over TCP.
#![tactic(auto)]

mod carrier;
mod folder;
mod lane;
mod leases;
mod link;
mod links;
mod refusals;
mod schedules;
mod sockets;
mod streams;
mod sweeps;
mod texts;
mod traces;

use self::refusals::tried::Fault;
use self::sweeps::fault::SweepFault;
use std::io::{self, Write};
use std::process::ExitCode;

/// Does the parts that the words name.
pub fn run(rt: &HostRuntime, words: &[String]) -> ExitCode {
    match obey(rt, words) {
        Ok(true) => ExitCode::from(0),
        Ok(false) => ExitCode::from(3),
        Err(fault) => {
            let _ = eprintln!(rt; "error: {}", fault.word());
            ExitCode::from(fault.status())
        }
    }
}

impl From<SweepFault> for Fault {
    fn from(fault: SweepFault) -> Fault {
        match fault {
            SweepFault::Memory => Fault::Memory,
            SweepFault::Setting | SweepFault::AnotherFault => Fault::Wrong,
        }
    }
}

impl From<io::Error> for Fault {
    fn from(_: io::Error) -> Fault {
        Fault::File
    }
}

/// Does what the words say, and prints what came of it. Whether all is as it is to be.
fn obey(rt: &HostRuntime, words: &[String]) -> Result<bool, Fault> {
    let mut text = String::new(rt.alloc());
    let is_well = heed_all(rt, words, &mut text)?;
    match rt.stdout().write_all(text.as_bytes()) {
        Ok(()) => Ok(is_well),
        Err(_) => Err(Fault::Output),
    }
}

fn heed_all(rt: &HostRuntime, words: &[String], text: &mut String) -> Result<bool, Fault> {
    let mut is_well = true;
    for word in words {
        is_well &= heed(rt, word.as_str(), text)?;
    }
    Ok(is_well)
}

/// Does what a word says. Whether all is as it is to be, where the part itself compares.
fn heed(rt: &HostRuntime, word: &str, text: &mut String) -> Result<bool, Fault> {
    match word {
        "sweeps" => sweeps::put(rt.alloc(), text)?,
        "streams" => streams::put(rt.alloc(), text)?,
        "leases" => leases::put(rt.alloc(), text)?,
        "links" => return Ok(links::play_all(rt, "links.txt", text)?),
        "traces" => return Ok(traces::play_all(rt, "traces.txt", text)?),
        "schedules" => return Ok(schedules::play_all(rt, "schedules", text)?),
        "texts" => texts::put(rt, text)?,
        "sockets" => sockets::put(rt, text)?,
        _ => refusals::heed(rt.alloc(), word, text)?,
    }
    Ok(true)
}
