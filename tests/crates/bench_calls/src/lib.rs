//! Walks with the client's calls over answers that lie in a file, and with a server's over requests, for
//! `bench/run`, which measures it beside programs in C that do the same.
//!
//! `bench_calls count SIZE FILE..` prints what each walk over these files counts; `bench_calls walk WALK
//! FILE SIZE TIMES` does one walk so many times, and prints each time what it counts.
//! `bench_calls sizes` prints how many bytes the values have that a program holds, and `bench_calls
//! memory KIND COUNT SIZE` makes so many idle ends or pools at once, so that its memory can be seen.
//! `bench_calls leases COUNT TIMES` makes a pool of so many connections, lends the one that is free, the
//! last, and gives it back, so many times.
//! `bench_calls exchanges COUNT TIMES` makes a service of so many connections, all of them held, and does
//! so many requests with their answers on the last one. `bench_calls relayed COUNT TIMES` does so through a
//! relay, each of whose connections an application holds, and `bench_calls in_turn COUNT TIMES` on each of
//! these in turn.
#![tactic(auto)]

mod asking;
mod counted;
mod exchanging;
mod fault;
mod idle;
mod leasing;
mod packets;
mod pieces;
mod relaying;
mod serving;
mod sizes;
mod walks;

use asking::{Hear, Take, Values};
use counted::Counted;
use exchanging::{all_held, exchange};
use fault::SpeedFault;
use idle::Idle;
use leasing::{lend_last, nearly_lent};
use pieces::pieces;
use relaying::{all_lent, relay_all};
use serving::{Look, serve};
use sizes::print_sizes;
use std::alloc::Global;
use std::fs;
use std::process::ExitCode;
use tds_packet::PacketSize;
use walks::{EachToken, Lengths, RowRuns, walked};

/// What is done with the bytes.
#[derive(Clone, Copy)]
enum Walk {
    /// The packets are found.
    Packets,
    /// The same from pieces of so many bytes, by a reader that keeps what has come.
    Pieces(usize),
    /// The packets are found, and a client takes each. Where it is idle a request goes out before.
    Hear,
    /// The packets' tokens are read.
    Tokens,
    /// The same in runs of rows, of which the values are summed.
    Rows,
    /// A client takes each packet, and the values of its rows are summed.
    Values,
    /// The same, and the client tells the tokens in memory of their own.
    Take,
    /// A server answers requests.
    Serve,
    /// The same, and each byte of the answers is looked at.
    Served,
}

/// The walks over answers.
const OVER_ANSWERS: [Walk; 9] = [
    Walk::Packets,
    Walk::Pieces(1),
    Walk::Pieces(100),
    Walk::Pieces(65_536),
    Walk::Hear,
    Walk::Tokens,
    Walk::Rows,
    Walk::Values,
    Walk::Take,
];

/// The walks over requests.
const OVER_REQUESTS: [Walk; 2] = [Walk::Serve, Walk::Served];

/// The walks over these bytes, which begin with a packet of an answer (MS-TDS 2.2.3.1.1), or of a
/// request.
fn walks_over(bytes: &[u8]) -> &'static [Walk] {
    match bytes.first() {
        Some(0x04) => &OVER_ANSWERS,
        _ => &OVER_REQUESTS,
    }
}

impl Walk {
    /// The walk of this name over these bytes.
    fn named(name: &str, bytes: &[u8]) -> Option<Walk> {
        for walk in walks_over(bytes) {
            if walk.name() == name {
                return Some(*walk);
            }
        }
        None
    }

    fn name(self) -> &'static str {
        match self {
            Walk::Packets => "packets",
            Walk::Pieces(1) => "pieces1",
            Walk::Pieces(100) => "pieces100",
            Walk::Pieces(_) => "pieces65536",
            Walk::Hear => "hear",
            Walk::Tokens => "tokens",
            Walk::Rows => "rows",
            Walk::Values => "values",
            Walk::Take => "take",
            Walk::Serve => "serve",
            Walk::Served => "served",
        }
    }

    fn walk(self, alloc: Global, size: PacketSize, bytes: &[u8]) -> Result<Counted, SpeedFault> {
        match self {
            Walk::Packets => walked(Lengths, size, bytes),
            Walk::Pieces(length) => pieces(alloc, size, bytes, length),
            Walk::Hear => walked(Hear::new(alloc, size)?, size, bytes),
            Walk::Tokens => walked(EachToken::new(), size, bytes),
            Walk::Rows => walked(RowRuns::new(), size, bytes),
            Walk::Values => walked(Values::new(alloc, size)?, size, bytes),
            Walk::Take => walked(Take::new(alloc, size)?, size, bytes),
            Walk::Serve => serve(alloc, size, bytes, Look::Length),
            Walk::Served => serve(alloc, size, bytes, Look::Bytes),
        }
    }
}

/// Does what the words say.
pub fn run(rt: &HostRuntime, words: &[String]) -> ExitCode {
    match obey(rt, words) {
        Ok(()) => ExitCode::SUCCESS,
        Err(fault) => {
            let _ = eprintln!(rt; "{fault}");
            ExitCode::FAILURE
        }
    }
}

/// Does what the words say.
fn obey(rt: &HostRuntime, words: &[String]) -> Result<(), SpeedFault> {
    match words {
        [verb] if verb.as_str() == "sizes" => print_sizes(rt),
        [verb, kind, count, size] if verb.as_str() == "memory" => {
            print_made(rt, kind.as_str(), count.as_str(), size.as_str())
        }
        [verb, count, times] if verb.as_str() == "leases" => {
            lend(rt, count.as_str(), number(times.as_str())?)
        }
        [verb, count, times] if verb.as_str() == "exchanges" => {
            exchange_all(rt, number(count.as_str())?, number(times.as_str())?)
        }
        [verb, count, times] if verb.as_str() == "relayed" => {
            relay_last(rt, number(count.as_str())?, number(times.as_str())?)
        }
        [verb, count, times] if verb.as_str() == "in_turn" => {
            relay_in_turn(rt, number(count.as_str())?, number(times.as_str())?)
        }
        [verb, size, names @ ..] if verb.as_str() == "count" => {
            count_all(rt, packet_size(size.as_str())?, names)
        }
        [verb, walk, file, size, times] if verb.as_str() == "walk" => {
            let bytes = fs::read(rt, file.as_str())?;
            let walk = Walk::named(walk.as_str(), bytes.as_slice()).ok_or(SpeedFault::Usage)?;
            let size = packet_size(size.as_str())?;
            repeat(rt, walk, size, number(times.as_str())?, bytes.as_slice())
        }
        _ => Err(SpeedFault::Usage),
    }
}

/// Makes so many idle ends or pools of this kind, and prints how many there are.
fn print_made(rt: &HostRuntime, kind: &str, count: &str, size: &str) -> Result<(), SpeedFault> {
    let kind = Idle::named(kind).ok_or(SpeedFault::Usage)?;
    let count = number(count)?;
    let made = kind.make(rt.alloc(), packet_size(size)?, count as usize)?;
    println!(rt; "{made}")?;
    Ok(())
}

/// Lends the last connection of a pool of so many, so many times.
fn lend(rt: &HostRuntime, count: &str, times: u32) -> Result<(), SpeedFault> {
    let count = count.parse::<u16>().map_err(|_| SpeedFault::Usage)?;
    let mut pool = nearly_lent(rt.alloc(), count, packet_size("4096")?)?;
    lend_last(rt.alloc(), &mut pool, times)
}

/// Does so many exchanges on the last connection of a service of so many.
fn exchange_all(rt: &HostRuntime, count: u32, times: u32) -> Result<(), SpeedFault> {
    let (mut service, lease) = all_held(rt.alloc(), count as usize, packet_size("4096")?)?;
    exchange(rt.alloc(), &mut service, lease, times)
}

/// Does so many exchanges of the last application of a relay of so many.
fn relay_last(rt: &HostRuntime, count: u32, times: u32) -> Result<(), SpeedFault> {
    let (mut relay, all) = all_lent(rt.alloc(), count as usize, packet_size("4096")?)?;
    let before = all.len().saturating_sub(1);
    match all.get(before..) {
        Some(last) => relay_all(&mut relay, last, times),
        None => Err(SpeedFault::Refused),
    }
}

/// Does so many exchanges of the applications of a relay of so many, one each in turn.
fn relay_in_turn(rt: &HostRuntime, count: u32, times: u32) -> Result<(), SpeedFault> {
    let (mut relay, all) = all_lent(rt.alloc(), count as usize, packet_size("4096")?)?;
    relay_all(&mut relay, all.as_slice(), times)
}

fn count_all(rt: &HostRuntime, size: PacketSize, names: &[String]) -> Result<(), SpeedFault> {
    for name in names {
        count(rt, size, fs::read(rt, name.as_str())?.as_slice())?;
    }
    Ok(())
}

fn number(word: &str) -> Result<u32, SpeedFault> {
    word.parse::<u32>().map_err(|_| SpeedFault::Usage)
}

fn packet_size(word: &str) -> Result<PacketSize, SpeedFault> {
    let size = word.parse::<u16>().map_err(|_| SpeedFault::Usage)?;
    PacketSize::new(size).ok_or(SpeedFault::Usage)
}

fn count(rt: &HostRuntime, size: PacketSize, bytes: &[u8]) -> Result<(), SpeedFault> {
    for walk in walks_over(bytes) {
        let counted = walk.walk(rt.alloc(), size, bytes)?;
        println!(rt; "{} {counted}", walk.name())?;
    }
    Ok(())
}

/// Does a walk so many times.
fn repeat(
    rt: &HostRuntime,
    walk: Walk,
    size: PacketSize,
    times: u32,
    bytes: &[u8],
) -> Result<(), SpeedFault> {
    for _ in 0..times {
        let counted = walk.walk(rt.alloc(), size, bytes)?;
        println!(rt; "{counted}")?;
    }
    Ok(())
}
