//! Ends that do nothing, as many as are wanted, so that the memory that they take can be seen.
ghost use Rattle.std.specs.Prelude.{◌≡◌};

use crate::fault::SpeedFault;
use std::alloc::Global;
use tds_ends::{ClientEnd, ServerEnd};
use tds_packet::PacketSize;
use tds_pool::{Lease, Pool};
use tds_request::{BatchText, Request};
use tds_server::{ScriptEngine, Worked};

/// What there are many of.
#[derive(Clone, Copy)]
pub enum Idle {
    /// Clients' ends that were made, and did nothing.
    Client,
    /// Clients' ends that had a request of 15 units answered.
    UsedClient,
    /// Servers' ends that were made, and did nothing.
    Server,
    /// Servers' ends that answered a request of 9 units.
    UsedServer,
    /// Pools with 64 connections that were lent and given back.
    Pool,
}

impl Idle {
    /// The kind of this name.
    pub fn named(name: &str) -> Option<Idle> {
        match name {
            "client" => Some(Idle::Client),
            "used-client" => Some(Idle::UsedClient),
            "server" => Some(Idle::Server),
            "used-server" => Some(Idle::UsedServer),
            "pool" => Some(Idle::Pool),
            _ => None,
        }
    }

    /// Makes so many, all there at once, and answers how many there are.
    pub fn make(self, alloc: Global, size: PacketSize, count: usize) -> Result<usize, SpeedFault> {
        match self {
            Idle::Client => many(alloc, count, || new_client(alloc, size)),
            Idle::UsedClient => many(alloc, count, || used_client(alloc, size)),
            Idle::Server => many(alloc, count, || new_server(alloc, size)),
            Idle::UsedServer => many(alloc, count, || used_server(alloc, size)),
            Idle::Pool => many(alloc, count, || new_pool(alloc, size)),
        }
    }
}

/// Makes so many, all there at once, and answers how many there are.
fn many<T: Drop, F: FnMut() -> Result<T, SpeedFault> + Drop>(
    alloc: Global,
    count: usize,
    mut make: F,
) -> Result<usize, SpeedFault>
    requires { F.IsAlwaysCallable make }
{
    let mut all = Vec::with_capacity(alloc, count)?;
    for _ in 0..count {
        all.push(make()?)?;
    }
    Ok(all.len())
}

fn new_client(alloc: Global, size: PacketSize) -> Result<ClientEnd, SpeedFault> {
    Ok(ClientEnd::new(alloc, size))
}

/// The answer to a request: one packet with a final DONE (MS-TDS 2.2.7.6).
const ANSWERED: [u8; 21] = [
    0x04, 0x01, 0x00, 0x15, 0, 0, 1, 0, 0xFD, 0, 0, 0, 0, 0, 0, 0, 0, 0, 0, 0, 0,
];

fn used_client(alloc: Global, size: PacketSize) -> Result<ClientEnd, SpeedFault> {
    let mut end = ClientEnd::new(alloc, size);
    let request = batch(alloc, b"select a from b")?;
    let (mut out, mut told) = (Vec::new(alloc), Vec::new(alloc));
    let is_started = end.client_mut().start(&request).is_ok();
    let is_sent = end.client_mut().send(&mut out).is_ok();
    let fed = end.listen(&ANSWERED, &mut told);
    if is_started && is_sent && fed.settled.is_some() {
        Ok(end)
    } else {
        Err(SpeedFault::Refused)
    }
}

fn new_server(alloc: Global, size: PacketSize) -> Result<ServerEnd<ScriptEngine>, SpeedFault> {
    Ok(ServerEnd::new(alloc, ScriptEngine, size))
}

/// A request: `say hello`.
const ASKED: [u8; 48] = [
    0x01, 0x01, 0x00, 0x30, 0, 0, 1, 0, // header (MS-TDS 2.2.3.1)
    22, 0, 0, 0, 18, 0, 0, 0, 2, 0, 0, 0, 0, 0, 0, 0, 0, 0, 1, 0, 0, 0, // ALL_HEADERS (2.2.5.3)
    b's', 0, b'a', 0, b'y', 0, b' ', 0, b'h', 0, b'e', 0, b'l', 0, b'l', 0, b'o', 0,
];

fn used_server(alloc: Global, size: PacketSize) -> Result<ServerEnd<ScriptEngine>, SpeedFault> {
    let mut end = ServerEnd::new(alloc, ScriptEngine, size);
    let mut out = Vec::new(alloc);
    let fed = end.serve(&ASKED, &mut out);
    let said = end.work(&mut out)?;
    let ended = end.work(&mut out)?;
    if fed.stop.is_none() && said == Worked::Step && ended == Worked::Finished {
        Ok(end)
    } else {
        Err(SpeedFault::Refused)
    }
}

/// A batch of this text.
fn batch(alloc: Global, text: &[u8]) -> Result<Request, SpeedFault> {
    let mut units = Vec::new(alloc);
    for byte in text {
        units.push(u16::from(*byte))?;
    }
    match BatchText::new(units) {
        Some(text) => Ok(Request::Batch(text)),
        None => Err(SpeedFault::Refused),
    }
}

fn new_pool(alloc: Global, size: PacketSize) -> Result<Pool, SpeedFault> {
    let Some(mut pool) = Pool::new(alloc, 64, size) else {
        return Err(SpeedFault::Refused);
    };
    open(alloc, &mut pool, 64)?;
    if pool.len() == 64 {
        Ok(pool)
    } else {
        Err(SpeedFault::Refused)
    }
}

/// Leases so many connections, all at once, and gives them back.
fn open(alloc: Global, pool: &mut Pool, left: u32) -> Result<(), SpeedFault> {
    if left == 0 {
        return Ok(());
    }
    let Ok((lease, _)) = pool.lease(alloc) else {
        return Err(SpeedFault::Refused);
    };
    let opened = open(alloc, pool, left - 1);
    give_back(alloc, pool, lease);
    opened
}

/// Spends a lease; where memory is wanted for it, as that of a lost connection.
pub fn give_back(alloc: Global, pool: &mut Pool, lease: Lease) {
    let mut out = Vec::new(alloc);
    if let Err((lease, _)) = pool.give_back(lease, &mut out) {
        let _ = pool.lost(lease.number());
        match pool.give_back(lease, &mut out) {
            Ok(_) => {}
            Err(_) => unreachable!(),
        }
    }
}
