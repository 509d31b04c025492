//! What the product makes of bytes: a reader, and behind it a client or a server.

use super::ends::Came;
use super::fault::SweepFault;
use super::trace::{Step, Trace};
use std::alloc::Global;
use tds_client::{Cancelled, Client, ClientFault, Taken};
use tds_packet::{Direction, Kind, PacketReader, PacketRef, PacketSize, Reset};
use tds_request::{BatchText, Request};
use tds_server::{ScriptEngine, Server, ServerFault, ServerTook};
use tds_token::{Token, put_token};

/// A packet that any server takes, and one that a cancelling client takes.
const ATTENTION: [u8; 8] = [0x06, 0x01, 0x00, 0x08, 0x00, 0x00, 0x01, 0x00];

const ACKNOWLEDGEMENT: [u8; 21] = [
    0x04, 0x01, 0x00, 0x15, 0x00, 0x00, 0x01, 0x00, 0xFD, 0x20, 0x00, 0x00, 0x00, 0, 0, 0, 0, 0, 0,
    0, 0,
];

/// The answer to a begin: the transaction with descriptor 1 has begun.
const BEGUN: [u8; 35] = [
    0x04, 0x01, 0x00, 0x23, 0x00, 0x00, 0x01, 0x00, 0xE3, 0x0B, 0x00, 0x08, 0x08, 0x01, 0x00, 0x00,
    0x00, 0x00, 0x00, 0x00, 0x00, 0x00, 0xFD, 0x00, 0x00, 0x00, 0x00, 0x00, 0x00, 0x00, 0x00, 0x00,
    0x00, 0x00, 0x00,
];

/// The first packet of a batch: two bytes of data.
pub const PART: [u8; 10] = [0x01, 0x00, 0x00, 0x0A, 0x00, 0x00, 0x01, 0x00, 0x41, 0x42];

/// An end of a connection that a sweep feeds.
#[derive(Drop)]
pub enum End {
    Client(Client),
    Server(Server<ScriptEngine>),
}

pub fn size() -> Result<PacketSize, SweepFault> {
    match PacketSize::new(512) {
        None => Err(SweepFault::Setting),
        Some(size) => Ok(size),
    }
}

impl End {
    /// Takes a packet. What is told, or replied, is appended as bytes.
    fn take(&mut self, packet: PacketRef<'_>, out: &mut Vec<u8>) -> Result<Came, SweepFault> {
        match (self, packet.header.kind) {
            (End::Client(client), Kind::Answer) => client_takes(client, packet, out),
            (End::Client(_), _) => Err(SweepFault::Setting),
            (End::Server(_), Kind::Answer) => Err(SweepFault::Setting),
            (End::Server(server), Kind::Batch) => came_to_server(server.take(packet, out)),
            (End::Server(server), Kind::Attention) => came_to_server(server.take(packet, out)),
            (End::Server(server), Kind::Transaction) => came_to_server(server.take(packet, out)),
            (End::Server(_), Kind::Procedure | Kind::BulkLoad) => Err(SweepFault::Setting),
        }
    }

    fn direction(&self) -> Direction {
        match self {
            End::Client(_) => Direction::ToClient,
            End::Server(_) => Direction::ToServer,
        }
    }

    /// A lawful packet that comes this way.
    fn lawful(&self) -> &'static [u8] {
        match self {
            End::Client(_) => &ACKNOWLEDGEMENT,
            End::Server(_) => &ATTENTION,
        }
    }

    /// The descriptor of the open transaction.
    fn descriptor(&self) -> u64 {
        match self {
            End::Client(client) => client.descriptor(),
            End::Server(server) => server.session().descriptor(),
        }
    }
}

fn client_takes(
    client: &mut Client,
    packet: PacketRef<'_>,
    out: &mut Vec<u8>,
) -> Result<Came, SweepFault> {
    let mut tokens: Vec<Token> = Vec::new(*out.allocator());
    if packet.header.kind != Kind::Answer {
        return Err(SweepFault::Setting);
    }
    let came = match client.take(packet, &mut tokens) {
        Ok(Taken::More) => Came::More,
        Ok(Taken::Finished) => Came::Finished,
        Ok(Taken::Acknowledged) => Came::Acknowledged,
        Ok(Taken::NoMemory) => return Err(SweepFault::Memory),
        Err(ClientFault::Token(fault)) => Came::Fault(8, fault.number()),
        Err(fault) => Came::Fault(fault.number(), 0),
    };
    for token in &tokens {
        if !token.fits() {
            return Err(SweepFault::Setting);
        }
        put_token(out, token)?;
    }
    Ok(came)
}

fn came_to_server(took: Result<ServerTook, ServerFault>) -> Result<Came, SweepFault> {
    match took {
        Ok(ServerTook::More) => Ok(Came::More),
        Ok(ServerTook::Request) => Ok(Came::Request),
        Ok(ServerTook::Dropped) => Ok(Came::Dropped),
        Ok(ServerTook::Acknowledged) => Ok(Came::Acknowledged),
        Ok(ServerTook::NoMemory) => Err(SweepFault::Memory),
        Err(ServerFault::WrongRequest(fault)) => Ok(Came::Fault(6, fault.number())),
        Err(fault) => Ok(Came::Fault(fault.number(), 0)),
    }
}

/// Feeds pieces to an end. Behind a fault it hands a lawful packet to what refused, and looks
/// whether the same fault comes again.
pub fn fed(alloc: Global, end: &mut End, pieces: &[&[u8]]) -> Result<Trace, SweepFault> {
    let mut reader = PacketReader::new(alloc, size()?, end.direction())?;
    let mut trace = Trace::new(alloc);
    let mut waiting = 0usize;
    for piece in pieces {
        if trace.has_fault() {
            break;
        }
        feed(end, &mut reader, *piece, &mut waiting, &mut trace)?;
    }
    if !trace.has_fault() && waiting > 0 {
        trace.steps.push(Step::Waiting)?;
    }
    trace.descriptor = end.descriptor();
    if !is_answered_again(alloc, end, &mut reader, &trace)? {
        return Err(SweepFault::AnotherFault);
    }
    Ok(trace)
}

fn feed(
    end: &mut End,
    reader: &mut PacketReader,
    piece: &[u8],
    waiting: &mut usize,
    trace: &mut Trace,
) -> Result<(), SweepFault> {
    let mut rest = piece;
    for _ in 0..=piece.len() {
        match reader.feed(rest) {
            Ok(count) => {
                *waiting = waiting.saturating_add(count);
                rest = &rest[count..];
            }
            Err(fault) => {
                trace.steps.push(Step::Wrong(fault.number()))?;
                return Ok(());
            }
        }
        let Some(packet) = reader.packet() else {
            return Ok(());
        };
        let came = end.take(packet, &mut trace.bytes)?;
        trace.steps.push(Step::Came(came))?;
        if trace.has_fault() {
            return Ok(());
        }
        reader.done();
        *waiting = 0;
    }
    Ok(())
}

/// What refused, refuses a lawful packet with the same fault.
fn is_answered_again(
    alloc: Global,
    end: &mut End,
    reader: &mut PacketReader,
    trace: &Trace,
) -> Result<bool, SweepFault> {
    let lawful = end.lawful();
    match trace.steps.last() {
        Some(Step::Wrong(number)) => match reader.feed(lawful) {
            Ok(_) => Ok(false),
            Err(fault) => Ok(fault.number() == *number),
        },
        Some(Step::Came(Came::Fault(number, inner))) => {
            let mut reader = PacketReader::new(alloc, size()?, end.direction())?;
            if reader.feed(lawful).is_err() {
                return Ok(false);
            }
            let Some(packet) = reader.packet() else {
                return Ok(false);
            };
            let mut out = Vec::new(alloc);
            Ok(end.take(packet, &mut out)? == Came::Fault(*number, *inner) && out.is_empty())
        }
        _ => Ok(true),
    }
}

fn text(alloc: Global) -> Result<Request, SweepFault> {
    match BatchText::new(vec![in alloc; 0x61]?) {
        None => Err(SweepFault::Setting),
        Some(text) => Ok(Request::Batch(text)),
    }
}

/// Sends a request whole.
fn ask(alloc: Global, client: &mut Client) -> Result<(), SweepFault> {
    let request = text(alloc)?;
    let mut out = Vec::new(alloc);
    if client.start(&request).is_err() || client.send(&mut out).is_err() {
        return Err(SweepFault::Setting);
    }
    Ok(())
}

/// Lets a client hear that transaction 1 has begun.
fn begin(alloc: Global, client: &mut Client) -> Result<(), SweepFault> {
    ask(alloc, client)?;
    let mut reader = PacketReader::new(alloc, size()?, Direction::ToClient)?;
    if reader.feed(&BEGUN).is_err() {
        return Err(SweepFault::Setting);
    }
    let Some(packet) = reader.packet() else {
        return Err(SweepFault::Setting);
    };
    let mut out = Vec::new(alloc);
    match client_takes(client, packet, &mut out)? {
        Came::Finished => Ok(()),
        _ => Err(SweepFault::Setting),
    }
}

/// A client that reads an answer: in transaction 1 or outside one, with a full reset asked for or
/// not, and cancelling or not.
pub fn client_at(
    alloc: Global,
    is_begun: bool,
    is_marked: bool,
    is_cancelling: bool,
) -> Result<End, SweepFault> {
    let mut client = Client::new(alloc, size()?);
    if is_begun {
        begin(alloc, &mut client)?;
    }
    if is_marked && client.mark_reset(Reset::Full).is_err() {
        return Err(SweepFault::Setting);
    }
    ask(alloc, &mut client)?;
    let mut out = Vec::new(alloc);
    if is_cancelling && !matches!(client.cancel(&mut out), Ok(Cancelled::Asked)) {
        return Err(SweepFault::Setting);
    }
    Ok(End::Client(client))
}

/// A server that waits for a request, or has the first part of a batch.
pub fn server_at(alloc: Global, is_receiving: bool) -> Result<End, SweepFault> {
    let mut end = End::Server(Server::new(alloc, ScriptEngine, size()?));
    if is_receiving {
        fed(alloc, &mut end, &[&PART])?;
    }
    Ok(end)
}
