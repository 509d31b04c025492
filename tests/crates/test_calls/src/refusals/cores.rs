//! The calls of the client's and of the server's core.

ghost use Rattle.std.specs.Prelude.{◌≡◌};

use super::layers::{FRONT, batch, begin, size};
use super::tried::{Fault, Tried, again};
use std::alloc::Global;
use tds_client::{Cancelled, Client, ClientRefusal, ClientState, Sent, Taken};
use tds_packet::{Header, Kind, PacketRef, Status};
use tds_request::Request;
use tds_server::{Server, ServerTook, Worked};
use tds_session::ScriptEngine;
use tds_token::Token;

/// An answer: message 50000 `a`, and a final DONE.
pub const ANSWER: [u8; 40] = [
    0x04, 0x01, 0x00, 0x28, 0x00, 0x00, 0x01, 0x00, 0xAB, 0x10, 0x00, 0x50, 0xC3, 0x00, 0x00, 0x01,
    0x00, 0x01, 0x00, 0x61, 0x00, 0, 0, 0, 0, 0, 0, 0xFD, 0, 0, 0, 0, 0, 0, 0, 0, 0, 0, 0, 0,
];

/// Asks for this. Where it is refused for anything but want of memory, that is wrong.
pub fn start(client: &mut Client, request: &Request) -> Result<(), Fault> {
    match client.start(request) {
        Ok(()) => Ok(()),
        Err(ClientRefusal::Memory) => Err(Fault::Memory),
        Err(_) => Err(Fault::Wrong),
    }
}

/// Sends the one packet of a request.
pub fn send(client: &mut Client, out: &mut Vec<u8>) -> Result<(), Fault> {
    match client.send(out) {
        Ok(Sent::Last) => Ok(()),
        Err(ClientRefusal::Memory) => Err(Fault::Memory),
        _ => Err(Fault::Wrong),
    }
}

/// Asks for a begin, and sends it whole.
pub fn ask(alloc: Global, client: &mut Client) -> Result<(), Fault> {
    start(client, &begin()?)?;
    let mut out = Vec::new(alloc);
    send(client, &mut out)
}

/// A call of a client.
#[derive(Clone, Copy)]
pub enum ClientCall {
    Start,
    Send,
    Cancel,
    Take,
}

/// Makes it on a client that is new.
pub fn call_client(alloc: Global, call: ClientCall, tried: &mut Tried) -> Result<(), Fault> {
    let mut client = Client::new(alloc, size()?);
    let mut out = Vec::new(alloc);
    match call {
        ClientCall::Start => client_start(alloc, &mut client, &mut out, tried),
        ClientCall::Send => client_send(alloc, &mut client, &mut out, tried),
        ClientCall::Cancel => client_cancel(alloc, &mut client, &mut out, tried),
        ClientCall::Take => client_take(alloc, &mut client, tried),
    }
}

/// Cancels a request that is read.
fn cancel(client: &mut Client, out: &mut Vec<u8>) -> Result<(), Fault> {
    match client.cancel(out) {
        Ok(Cancelled::Asked) => Ok(()),
        Err(ClientRefusal::Memory) => Err(Fault::Memory),
        _ => Err(Fault::Wrong),
    }
}

fn client_start(
    alloc: Global,
    client: &mut Client,
    out: &mut Vec<u8>,
    tried: &mut Tried,
) -> Result<(), Fault> {
    let request = batch(alloc)?;
    start_twice(client, &request, tried)?;
    send(client, out)?;
    tried.get(out.as_slice())
}

fn start_twice(client: &mut Client, request: &Request, tried: &mut Tried) -> Result<(), Fault> {
    match start(client, request) {
        Err(Fault::Memory) => {
            let is_idle = matches!(client.state(), ClientState::Idle);
            tried.refuse(is_idle && client.reset_mark().is_none());
            again(start(client, request))
        }
        started => started,
    }
}

fn client_send(
    alloc: Global,
    client: &mut Client,
    out: &mut Vec<u8>,
    tried: &mut Tried,
) -> Result<(), Fault> {
    start(client, &batch(alloc)?)?;
    out.extend_from_slice(&FRONT)?;
    match send(client, out) {
        Err(Fault::Memory) => {
            let is_sending = matches!(client.state(), ClientState::Sending);
            tried.refuse(is_sending && out.as_slice() == FRONT.as_slice());
            again(send(client, out))?;
        }
        sent => sent?,
    }
    tried.get(out.as_slice())
}

fn client_cancel(
    alloc: Global,
    client: &mut Client,
    out: &mut Vec<u8>,
    tried: &mut Tried,
) -> Result<(), Fault> {
    ask(alloc, client)?;
    match cancel(client, out) {
        Err(Fault::Memory) => {
            let is_reading = matches!(client.state(), ClientState::Reading);
            tried.refuse(is_reading && out.is_empty());
            again(cancel(client, out))?;
        }
        cancelled => cancelled?,
    }
    tried.get(out.as_slice())
}

/// Takes the answer.
fn take(client: &mut Client, told: &mut Vec<Token>) -> Result<(), Fault> {
    let packet = PacketRef {
        header: header(Kind::Answer, 40),
        data: &ANSWER[8..],
    };
    match client.take(packet, told) {
        Ok(Taken::Finished) => Ok(()),
        Ok(Taken::NoMemory) => Err(Fault::Memory),
        _ => Err(Fault::Wrong),
    }
}

/// The header of a message's only packet.
fn header(kind: Kind, length: u16) -> Header
    ensures { result.kind ≡ kind }
{
    Header {
        kind,
        status: Status::of_answer(true),
        length,
        spid: 0,
        packet_id: 1,
        window: 0,
    }
}

fn client_take(alloc: Global, client: &mut Client, tried: &mut Tried) -> Result<(), Fault> {
    ask(alloc, client)?;
    let mut told = Vec::new(alloc);
    take_twice(client, &mut told, tried)
}

fn take_twice(client: &mut Client, told: &mut Vec<Token>, tried: &mut Tried) -> Result<(), Fault> {
    match take(client, told) {
        Err(Fault::Memory) => {
            let is_reading = matches!(client.state(), ClientState::Reading);
            tried.refuse(is_reading && told.is_empty());
            again(take(client, told))?;
        }
        taken => taken?,
    }
    tried.count(told.len() as u64)
}

/// A batch `get x`, in one packet.
pub const GET: [u8; 40] = [
    0x01, 0x01, 0x00, 0x28, 0x00, 0x00, 0x01, 0x00, 22, 0, 0, 0, 18, 0, 0, 0, 2, 0, 0, 0, 0, 0, 0,
    0, 0, 0, 1, 0, 0, 0, 0x67, 0, 0x65, 0, 0x74, 0, 0x20, 0, 0x78, 0,
];

/// Takes the batch.
fn take_batch(server: &mut Server<ScriptEngine>, reply: &mut Vec<u8>) -> Result<(), Fault> {
    let packet = PacketRef {
        header: header(Kind::Batch, 40),
        data: &GET[8..],
    };
    match server.take(packet, reply) {
        Ok(ServerTook::Request) => Ok(()),
        Ok(ServerTook::NoMemory) => Err(Fault::Memory),
        _ => Err(Fault::Wrong),
    }
}

/// Takes an attention.
fn take_attention(server: &mut Server<ScriptEngine>, reply: &mut Vec<u8>) -> Result<(), Fault> {
    let packet = PacketRef {
        header: header(Kind::Attention, 8),
        data: &[],
    };
    match server.take(packet, reply) {
        Ok(ServerTook::Acknowledged) => Ok(()),
        Ok(ServerTook::NoMemory) => Err(Fault::Memory),
        _ => Err(Fault::Wrong),
    }
}

/// Whether a server is as it was made, and has replied nothing.
fn is_untouched(server: &Server<ScriptEngine>, reply: &[u8]) -> bool {
    server.session().descriptor() == 0 && reply.is_empty()
}

/// A call of a server.
#[derive(Clone, Copy)]
pub enum ServerCall {
    TakeBatch,
    TakeAttention,
    Work,
}

/// Makes it on a server that is new.
pub fn call_server(alloc: Global, call: ServerCall, tried: &mut Tried) -> Result<(), Fault> {
    let mut server = Server::new(alloc, ScriptEngine, size()?);
    let mut out = Vec::new(alloc);
    match call {
        ServerCall::TakeBatch => server_take(&mut server, &mut out, tried),
        ServerCall::TakeAttention => server_take_attention(&mut server, &mut out, tried),
        ServerCall::Work => server_work(&mut server, &mut out, tried),
    }
}

fn server_take(
    server: &mut Server<ScriptEngine>,
    reply: &mut Vec<u8>,
    tried: &mut Tried,
) -> Result<(), Fault> {
    match take_batch(server, reply) {
        Err(Fault::Memory) => {
            tried.refuse(is_untouched(server, reply.as_slice()));
            again(take_batch(server, reply))?;
        }
        taken => taken?,
    }
    tried.say("request")
}

fn server_take_attention(
    server: &mut Server<ScriptEngine>,
    reply: &mut Vec<u8>,
    tried: &mut Tried,
) -> Result<(), Fault> {
    match take_attention(server, reply) {
        Err(Fault::Memory) => {
            tried.refuse(is_untouched(server, reply.as_slice()));
            again(take_attention(server, reply))?;
        }
        taken => taken?,
    }
    tried.get(reply.as_slice())
}

/// Does a step of the answer, which isn't its last.
fn work(server: &mut Server<ScriptEngine>, out: &mut Vec<u8>) -> Result<(), Fault> {
    match server.work(out) {
        Ok(Worked::Step) => Ok(()),
        Ok(_) => Err(Fault::Wrong),
        Err(_) => Err(Fault::Memory),
    }
}

fn server_work(
    server: &mut Server<ScriptEngine>,
    out: &mut Vec<u8>,
    tried: &mut Tried,
) -> Result<(), Fault> {
    take_batch(server, out)?;
    match work(server, out) {
        Err(Fault::Memory) => {
            tried.refuse(is_untouched(server, out.as_slice()));
            again(work(server, out))?;
        }
        worked => worked?,
    }
    tried.get(out.as_slice())
}
