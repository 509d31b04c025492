//! The calls of the ends, which have a core and its reader.

use super::cores::{ANSWER, GET, ask};
use super::layers::size;
use super::tried::{Fault, Tried, again};
use std::alloc::Global;
use tds_client::ClientState;
use tds_ends::{ClientEnd, ClientStop, ServerEnd, ServerStop};
use tds_server::Worked;
use tds_session::ScriptEngine;
use tds_token::Token;

/// A call of an end.
#[derive(Clone, Copy)]
pub enum EndCall {
    Listen,
    Serve,
    Work,
}

/// Makes it.
pub fn call(alloc: Global, call: EndCall, tried: &mut Tried) -> Result<(), Fault> {
    match call {
        EndCall::Listen => client_listen(alloc, tried),
        EndCall::Serve => server_end(alloc, false, tried),
        EndCall::Work => server_end(alloc, true, tried),
    }
}

/// Listens to a piece. `None` where all of it was taken, and how many bytes were where memory was
/// wanted. The last piece ends the request, and no other does.
fn hear(
    end: &mut ClientEnd,
    piece: &[u8],
    is_last: bool,
    told: &mut Vec<Token>,
) -> Result<Option<usize>, Fault> {
    let fed = end.listen(piece, told);
    match &fed.stop {
        None if fed.count == piece.len() && fed.settled.is_some() == is_last => Ok(None),
        Some(ClientStop::NoMemory) => Ok(Some(fed.count)),
        _ => Err(Fault::Wrong),
    }
}

/// Listens to an answer.
fn client_listen(alloc: Global, tried: &mut Tried) -> Result<(), Fault> {
    let mut end = ClientEnd::new(alloc, size()?);
    let mut told = Vec::new(alloc);
    listen_to_all(alloc, &mut end, &mut told, tried)
}

/// The answer comes in two pieces.
fn listen_to_all(
    alloc: Global,
    end: &mut ClientEnd,
    told: &mut Vec<Token>,
    tried: &mut Tried,
) -> Result<(), Fault> {
    ask(alloc, end.client_mut())?;
    hear_all(end, &ANSWER[..30], false, told, tried)?;
    hear_all(end, &ANSWER[30..], true, told, tried)?;
    tried.count(told.len() as u64)
}

/// Listens to a piece; where memory was wanted, what is left of it comes again. Nothing of the
/// first piece is taken then: the end has no buffer.
fn hear_all(
    end: &mut ClientEnd,
    piece: &[u8],
    is_last: bool,
    told: &mut Vec<Token>,
    tried: &mut Tried,
) -> Result<(), Fault> {
    if let Some(count) = hear(end, piece, is_last, told)? {
        let is_reading = matches!(end.client().state(), ClientState::Reading);
        tried.refuse(is_reading && told.is_empty() && (is_last || count == 0));
        all_taken(hear(end, behind(piece, count), is_last, told)?)?;
    }
    Ok(())
}

/// What is left of a piece where so much of it was taken.
fn behind(piece: &[u8], count: usize) -> &[u8] {
    &piece[count.min(piece.len())..]
}

fn all_taken(taken: Option<usize>) -> Result<(), Fault> {
    match taken {
        None => Ok(()),
        Some(_) => Err(Fault::Wrong),
    }
}

/// The same of a server.
fn serve(
    end: &mut ServerEnd<ScriptEngine>,
    piece: &[u8],
    reply: &mut Vec<u8>,
) -> Result<Option<usize>, Fault> {
    let fed = end.serve(piece, reply);
    match &fed.stop {
        None if fed.count == piece.len() => Ok(None),
        Some(ServerStop::NoMemory) => Ok(Some(fed.count)),
        _ => Err(Fault::Wrong),
    }
}

/// Does a step of the answer, which isn't its last.
fn work(end: &mut ServerEnd<ScriptEngine>, out: &mut Vec<u8>) -> Result<(), Fault> {
    match end.work(out) {
        Ok(Worked::Step) => Ok(()),
        Ok(_) => Err(Fault::Wrong),
        Err(_) => Err(Fault::Memory),
    }
}

/// Whether a server's end is as it was made, and has replied nothing.
fn is_untouched(end: &ServerEnd<ScriptEngine>, reply: &[u8]) -> bool {
    end.server().session().descriptor() == 0 && reply.is_empty()
}

/// Makes a call of a server's end: `work`, or `serve` before it.
fn server_end(alloc: Global, is_work: bool, tried: &mut Tried) -> Result<(), Fault> {
    let mut end = ServerEnd::new(alloc, ScriptEngine, size()?);
    let mut out = Vec::new(alloc);
    if is_work {
        work_on_all(&mut end, &mut out, tried)
    } else {
        serve_all(&mut end, &mut out, tried)
    }
}

/// A batch comes in two pieces.
fn serve_all(
    end: &mut ServerEnd<ScriptEngine>,
    out: &mut Vec<u8>,
    tried: &mut Tried,
) -> Result<(), Fault> {
    serve_piece(end, &GET[..30], false, out, tried)?;
    serve_piece(end, &GET[30..], true, out, tried)?;
    work(end, out)?;
    tried.get(out.as_slice())
}

/// Where memory was wanted, what is left of the piece comes again, as at a client.
fn serve_piece(
    end: &mut ServerEnd<ScriptEngine>,
    piece: &[u8],
    is_last: bool,
    out: &mut Vec<u8>,
    tried: &mut Tried,
) -> Result<(), Fault> {
    if let Some(count) = serve(end, piece, out)? {
        tried.refuse(is_untouched(end, out.as_slice()) && (is_last || count == 0));
        all_taken(serve(end, behind(piece, count), out)?)?;
    }
    Ok(())
}

fn work_on_all(
    end: &mut ServerEnd<ScriptEngine>,
    out: &mut Vec<u8>,
    tried: &mut Tried,
) -> Result<(), Fault> {
    if serve(end, &GET, out)?.is_some() {
        return Err(Fault::Memory);
    }
    match work(end, out) {
        Err(Fault::Memory) => {
            tried.refuse(is_untouched(end, out.as_slice()));
            again(work(end, out))?;
        }
        worked => worked?,
    }
    tried.get(out.as_slice())
}
