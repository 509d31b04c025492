//! Random applications before a relay's core, without sockets: `test_relay SESSIONS SEED`, and what is written: two
//! that share by transactions, one that asks often, a full connection, a long answer, many that wait; or so many idle
//! ones: `test_relay idle COUNT`.
//!
//! Four groups of applications ask, cancel, reset, and leave at any byte, two by sessions and two by transactions;
//! their connections' servers answer in pieces, and are cut or break the protocol at any time. Each application
//! compares what it gets with what a server of its own would send. At times nothing new begins until nothing is
//! in flight: then each request is answered or in the line, and once all others have left it is answered too.
#![tactic(auto)]

mod answers;
mod application;
mod connection;
mod crowd;
mod cutting;
mod full;
mod group;
mod idle;
mod often;
mod packets;
mod parking;
mod random;
mod request;
mod server;
mod tally;

use crowd::{CROWDS, crowd};
use cutting::cut;
use full::fill;
use group::{Group, Kind};
use idle::idle;
use often::ask_often;
use parking::park;
use random::Random;
use std::io;
use std::process::ExitCode;
use tally::{Tally, Wrong};
use tds_packet::PacketSize;

/// How many things may happen for each session, and in any run.
const MOST_STEPS: u64 = 2_000;

/// Plays `SESSIONS SEED`, or `idle COUNT`.
pub fn run(rt: &HostRuntime, words: &[String]) -> ExitCode {
    match obey(rt, words) {
        Ok(true) => ExitCode::SUCCESS,
        Ok(false) => ExitCode::FAILURE,
        Err(error) => {
            let _ = eprintln!(rt; "error: {error}");
            ExitCode::FAILURE
        }
    }
}

/// Does what the words say. Whether nothing was wrong.
fn obey(rt: &HostRuntime, words: &[String]) -> io::Result<bool> {
    let [first, second] = words else {
        return Err(io::Error::from(io::ErrorKind::InvalidInput));
    };
    let second = second.as_str().parse::<u64>().unwrap_or(0);
    if first.as_str() == "idle" {
        let count = usize::try_from(second).unwrap_or(0);
        let waiting = idle(rt.alloc(), count)?;
        println!(rt; "{count} idle applications, {waiting} bytes wait for them")?;
        return Ok(waiting == 0);
    }
    let is_written = written(rt)?;
    let is_served = crowds(rt)?;
    let sessions = first.as_str().parse::<u64>().unwrap_or(0);
    let is_well = random_sessions(rt, sessions, second)?;
    Ok(is_well && is_served && is_written)
}

/// Plays what isn't random. Whether nothing was wrong.
fn written(rt: &HostRuntime) -> io::Result<bool> {
    let alloc = rt.alloc();
    let is_parted = tell(
        rt,
        "parking",
        park(alloc)?,
        "two share a connection by transactions",
    )?;
    let is_answered = tell(
        rt,
        "often",
        ask_often(alloc)?,
        "1,500 requests of one are answered",
    )?;
    let is_full = tell(rt, "full", fill(alloc)?, "what there is room for fits")?;
    let is_cut = tell(
        rt,
        "cutting",
        cut(alloc)?,
        "a long answer is cut, and no packet too long",
    )?;
    Ok(is_parted && is_answered && is_full && is_cut)
}

/// Tells what is wrong with a part, or what isn't. Whether nothing was wrong.
fn tell(
    rt: &HostRuntime,
    part: &'static str,
    wrong: Option<&'static str>,
    well: &'static str,
) -> io::Result<bool> {
    match wrong {
        Some(wrong) => println!(rt; "{part}: it isn't so that {wrong}")?,
        None => println!(rt; "{well}")?,
    }
    Ok(wrong.is_none())
}

/// Many that wait are served in one call. Whether nothing was wrong.
fn crowds(rt: &HostRuntime) -> io::Result<bool> {
    for count in CROWDS {
        if let Some(wrong) = crowd(rt.alloc(), count)? {
            println!(rt; "{count} that wait: it isn't so that {wrong}")?;
            return Ok(false);
        }
    }
    println!(rt; "17, 33 and 100 that wait are served in one call each")?;
    Ok(true)
}

/// Plays so many sessions, by random numbers that begin with this one. Whether nothing was wrong.
fn random_sessions(rt: &HostRuntime, sessions: u64, seed: u64) -> io::Result<bool> {
    let tally = play(rt, sessions, seed)?;
    println!(rt; "{} sessions: {} wrong", tally.sessions, tally.wrong)?;
    if tally.least() >= 5 {
        println!(rt; "each kind of thing has happened")?;
    }
    for first in tally.first.iter() {
        if let Some((wrong, session)) = *first {
            println!(rt; "{wrong:?}, session {session}")?;
        }
    }
    Ok(tally.wrong == 0)
}

fn play(rt: &HostRuntime, sessions: u64, seed: u64) -> io::Result<Tally> {
    let (Some(small), Some(large)) = (PacketSize::new(512), PacketSize::new(1_024)) else {
        return Err(io::Error::from(io::ErrorKind::InvalidInput));
    };
    let mut random = Random::new(seed);
    let mut tally = Tally::none();
    let quarter = sessions / 4;
    let last = sessions.saturating_sub(quarter.saturating_mul(3));
    let alloc = rt.alloc();
    let mut groups = Vec::new(alloc);
    groups.push(Group::new(alloc, Kind::by_sessions(small), quarter, 1)?)?;
    groups.push(Group::new(alloc, Kind::by_sessions(large), quarter, 1_000_000)?)?;
    groups.push(Group::new(alloc, Kind::by_transactions(small), quarter, 2_000_000)?)?;
    groups.push(Group::new(alloc, Kind::of_one(large), last, 3_000_000)?)?;
    for _ in 0..sessions.saturating_add(10).saturating_mul(MOST_STEPS) {
        let place = random.below(groups.len());
        let Some(group) = groups.get_mut(place) else {
            return Ok(tally);
        };
        group.step(&mut random, &mut tally)?;
        if group.is_over() && place < groups.len() {
            groups.remove(place);
        }
    }
    tally.note(Wrong::Stuck);
    Ok(tally)
}
