//! The pool's calls, with what they must answer. A lease must be spent, so no script can hold one: each
//! of these counts what held, and spends its leases. A case that is as it is to be appends 0, or the
//! numbers of the refusals.

mod keeping;

use std::alloc::{AllocError, Global};
use std::fmt::Write;
use tds_client::{Client, Sent};
use tds_packet::{Direction, Kind, PacketReader, PacketSize, Reset};
use tds_pool::{GivenBack, Lease, Opened, Place, Pool};
use tds_request::{Isolation, Request};

/// Its answer: descriptor 1 has begun (ENVCHANGE 8), and a final DONE.
const BEGUN: [u8; 35] = [
    0x04, 0x01, 0x00, 0x23, 0x00, 0x00, 0x01, 0x00, 0xE3, 0x0B, 0x00, 0x08, 0x08, 0x01, 0x00, 0x00,
    0x00, 0x00, 0x00, 0x00, 0x00, 0x00, 0xFD, 0x00, 0x00, 0x00, 0x00, 0x00, 0x00, 0x00, 0x00, 0x00,
    0x00, 0x00, 0x00,
];

/// A message that is an acknowledgement alone: a DONE with `0020`.
const ACKNOWLEDGED: [u8; 21] = [
    0x04, 0x01, 0x00, 0x15, 0x00, 0x00, 0x01, 0x00, 0xFD, 0x20, 0x00, 0x00, 0x00, 0, 0, 0, 0, 0, 0,
    0, 0,
];

/// Makes each case, and appends a line for it.
pub fn put(alloc: Global, text: &mut String) -> Result<(), AllocError> {
    let old = with_pool(alloc, 1, Case::OldLease);
    writeln!(
        text,
        "a key that serves a new number makes no old lease known: {old}"
    )?;
    let drained = with_pool(alloc, 1, Case::Drains);
    writeln!(text, "a draining connection is not lent: {drained}")?;
    let lowest = with_pool(alloc, 2, Case::Lowest);
    writeln!(text, "the lowest number is lent first: {lowest}")?;
    let filled = with_pool(alloc, 64, Case::Fill);
    writeln!(text, "the 65th of 64 connections is refused: {filled}")?;
    put_sizes(alloc, text)?;
    keeping::put(alloc, text)
}

/// A case, which begins with a new pool.
#[derive(Clone, Copy)]
enum Case {
    OldLease,
    Drains,
    Lowest,
    Fill,
}

/// What a case comes to on a pool of so many connections; 104 where there is none.
fn with_pool(alloc: Global, max: u16, case: Case) -> u8 {
    let Some(mut pool) = pool(alloc, max) else {
        return 104;
    };
    match case {
        Case::OldLease => old_lease(alloc, &mut pool),
        Case::Drains => drains(alloc, &mut pool),
        Case::Lowest => lowest(alloc, &mut pool),
        Case::Fill => filled(alloc, &mut pool),
    }
}

/// A wide pool has 1 to 1,024 connections.
fn put_sizes(alloc: Global, text: &mut String) -> Result<(), AllocError> {
    for max in [0, 1, 1024, 1025] {
        let is_made = pool(alloc, max).is_some();
        writeln!(text, "a pool of {max} connections: {is_made}")?;
    }
    Ok(())
}

fn pool(alloc: Global, max: u16) -> Option<Pool> {
    Pool::wide(alloc, max, PacketSize::new(512)?)
}

/// Spends a lease whose connection is lost.
fn spend(alloc: Global, pool: &mut Pool, lease: Lease) {
    let mut out = Vec::new(alloc);
    let _ = pool.lost(lease.number());
    match pool.give_back(lease, &mut out) {
        Ok(_) => {}
        Err(_) => unreachable!(),
    }
}

/// Gives a lease back: what was answered, and how many bytes went out.
fn back(alloc: Global, pool: &mut Pool, lease: Lease) -> (Option<GivenBack>, usize) {
    let mut out = Vec::new(alloc);
    match pool.give_back(lease, &mut out) {
        Ok(answer) => (Some(answer), out.len()),
        Err((lease, _)) => {
            spend(alloc, pool, lease);
            (None, 0)
        }
    }
}

/// A lease that is to be on this connection: none where it isn't.
fn lease(alloc: Global, pool: &mut Pool, wanted: Opened) -> Option<Lease> {
    match pool.lease(alloc) {
        Ok((lease, opened)) => {
            if opened == wanted {
                return Some(lease);
            }
            spend(alloc, pool, lease);
            None
        }
        Err(_) => None,
    }
}

/// The number of the refusal of a lease; 0 for none.
fn refused_lease(alloc: Global, pool: &mut Pool) -> u8 {
    match pool.lease(alloc) {
        Ok((lease, _)) => {
            spend(alloc, pool, lease);
            0
        }
        Err(refusal) => refusal.number(),
    }
}

/// Asks for a begin, and sends it.
fn ask(alloc: Global, client: &mut Client) -> bool {
    let Some(level) = Isolation::new(0) else {
        return false;
    };
    if client.start(&Request::Begin(level)).is_err() {
        return false;
    }
    let mut out = Vec::new(alloc);
    matches!(client.send(&mut out), Ok(Sent::Last))
}

/// Takes the packet that these bytes spell.
fn hears(alloc: Global, client: &mut Client, bytes: &[u8]) -> bool {
    let Some(size) = PacketSize::new(512) else {
        return false;
    };
    let Ok(mut reader) = PacketReader::new(alloc, size, Direction::ToClient) else {
        return false;
    };
    if reader.feed(bytes).is_err() {
        return false;
    }
    let mut told = Vec::new(alloc);
    match reader.packet() {
        Some(packet) => {
            packet.header.kind == Kind::Answer && client.take(packet, &mut told).is_ok()
        }
        None => false,
    }
}

/// Opens a transaction on a connection.
fn begin(alloc: Global, pool: &mut Pool, number: u32) -> bool {
    match pool.at(number) {
        Some(client) => ask(alloc, client) && hears(alloc, client, &BEGUN),
        None => false,
    }
}

/// Leaves a request underway on a connection.
fn busy(alloc: Global, pool: &mut Pool, number: u32) -> bool {
    match pool.at(number) {
        Some(client) => ask(alloc, client),
        None => false,
    }
}

/// Breaks a connection's client.
fn breaks(pool: &mut Pool, number: u32) -> bool {
    match pool.at(number) {
        Some(client) => {
            client.lost();
            true
        }
        None => false,
    }
}

/// With one connection: a lease of the lost one stays unknown when its key serves a new one.
fn old_lease(alloc: Global, pool: &mut Pool) -> u8 {
    let Some(first) = lease(alloc, pool, Opened::New(1)) else {
        return 1;
    };
    let mut failed = 0;
    if !pool.lost(1) || pool.lost(1) {
        failed = 2;
    }
    match lease(alloc, pool, Opened::New(2)) {
        Some(second) => {
            if pool.client(&first).is_some() || pool.client(&second).is_none() {
                failed = 3;
            }
            spend(alloc, pool, second);
        }
        None => failed = 4,
    }
    match pool.keep(first) {
        Ok(ticket) => {
            let _ = pool.abandon(ticket);
            5
        }
        Err((first, refusal)) => {
            spend(alloc, pool, first);
            if refusal.number() == 2 { failed } else { 6 }
        }
    }
}

/// A lease that is given back with an answer underway drains; its connection is lent again once the
/// attention is acknowledged and `drained` was called, and not before, and is marked for a full reset.
fn drains(alloc: Global, pool: &mut Pool) -> u8 {
    let Some(first) = lease(alloc, pool, Opened::New(1)) else {
        return 1;
    };
    let asked = busy(alloc, pool, 1);
    if back(alloc, pool, first) != (Some(GivenBack::Draining(1)), 8) || !asked {
        return 2;
    }
    if refused_lease(alloc, pool) != 1 || pool.drained(1) != GivenBack::Draining(1) {
        return 3;
    }
    let heard = match pool.at(1) {
        Some(client) => hears(alloc, client, &ACKNOWLEDGED),
        None => false,
    };
    // Its client is idle, and the connection still drains.
    if !heard || refused_lease(alloc, pool) != 1 {
        return 4;
    }
    if pool.drained(1) != GivenBack::Free(1) || pool.drained(1) != GivenBack::Unknown {
        return 5;
    }
    let Some(second) = lease(alloc, pool, Opened::Reused(1)) else {
        return 6;
    };
    let full = match pool.client(&second) {
        Some(client) => client.reset_mark() == Some(Reset::Full),
        None => false,
    };
    spend(alloc, pool, second);
    if full { 0 } else { 7 }
}

/// The lowest number is lent first, whichever came back first; a free one that broke is passed over.
fn lowest(alloc: Global, pool: &mut Pool) -> u8 {
    let Some(first) = lease(alloc, pool, Opened::New(1)) else {
        return 1;
    };
    let Some(second) = lease(alloc, pool, Opened::New(2)) else {
        spend(alloc, pool, first);
        return 2;
    };
    let one = back(alloc, pool, second) == (Some(GivenBack::Free(2)), 0);
    let two = back(alloc, pool, first) == (Some(GivenBack::Free(1)), 0);
    if !one || !two {
        return 3;
    }
    let Some(third) = lease(alloc, pool, Opened::Reused(1)) else {
        return 4;
    };
    if back(alloc, pool, third) != (Some(GivenBack::Free(1)), 0) || !breaks(pool, 1) {
        return 5;
    }
    let Some(fourth) = lease(alloc, pool, Opened::Reused(2)) else {
        return 6;
    };
    let none = refused_lease(alloc, pool) == 1;
    let lost = pool.lost(1);
    spend(alloc, pool, fourth);
    if none && lost { 0 } else { 7 }
}

/// Leases so many connections, and then one more: the number of its refusal.
fn fill(alloc: Global, pool: &mut Pool, left: u32) -> u8 {
    if left == 0 {
        return refused_lease(alloc, pool);
    }
    match pool.lease(alloc) {
        Ok((lease, _)) => {
            let refused = fill(alloc, pool, left - 1);
            let _ = back(alloc, pool, lease);
            refused
        }
        Err(_) => 100,
    }
}

/// Leases 64 connections and then one more: the number of its refusal. All are free then.
fn filled(alloc: Global, pool: &mut Pool) -> u8 {
    let refused = fill(alloc, pool, 64);
    if pool.len() == 64 && pool.count(Place::Free) == 64 {
        refused
    } else {
        100
    }
}
