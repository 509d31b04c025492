//! The calls of the packet, token, request and session layers.

use super::tried::{Fault, Tried, again};
use std::alloc::{AllocError, Global};
use tds_packet::{Direction, Header, Kind, PacketReader, PacketSize, Status, put_packet, put_sent};
use tds_request::{BatchText, Isolation, Request, RequestFault, RequestKind, decode, encode};
use tds_session::{Engine, ScriptEngine, Session, Statement, begin_transaction, error_token};
use tds_token::{Columns, Token, Tokens, put_token};

/// What stands before each call in the vector that it appends to.
pub const FRONT: [u8; 8] = [9; 8];

const DATA: [u8; 64] = [7; 64];

/// An attention, whole.
const ATTENTION: [u8; 8] = [0x06, 0x01, 0x00, 0x08, 0x00, 0x00, 0x01, 0x00];

pub fn size() -> Result<PacketSize, Fault> {
    PacketSize::new(512).ok_or(Fault::Wrong)
}

fn front(alloc: Global) -> Result<Vec<u8>, Fault> {
    let mut out = Vec::new(alloc);
    out.extend_from_slice(&FRONT)?;
    Ok(out)
}

/// The units of a text of ASCII letters.
fn units(alloc: Global, text: &[u8]) -> Result<Vec<u16>, Fault> {
    let mut units = Vec::new(alloc);
    for byte in text {
        units.push(u16::from(*byte))?;
    }
    Ok(units)
}

/// A batch `get x`.
pub fn batch(alloc: Global) -> Result<Request, Fault> {
    let text = BatchText::new(units(alloc, b"get x")?);
    Ok(Request::Batch(text.ok_or(Fault::Wrong)?))
}

pub fn begin() -> Result<Request, Fault> {
    Ok(Request::Begin(Isolation::new(0).ok_or(Fault::Wrong)?))
}

fn reader_new(alloc: Global, tried: &mut Tried) -> Result<(), Fault> {
    let Ok(mut reader) = PacketReader::new(alloc, size()?, Direction::ToServer) else {
        return Err(Fault::Refused);
    };
    match reader.feed(&ATTENTION) {
        Ok(count) => tried.count(count as u64),
        Err(_) => Err(Fault::Wrong),
    }
}

/// What is appended to a vector.
#[derive(Clone, Copy)]
pub enum Appended {
    Packet,
    SentPacket,
    Token,
    /// A token for a part of which there is room, so that memory is wanted in its middle.
    TokenInPart,
    Request,
}

/// A call of one of these layers.
#[derive(Clone, Copy)]
pub enum LayerCall {
    NewReader,
    Put(Appended),
    /// Of the token of this number.
    Own(usize),
    Decode,
    Parse,
    Step,
    Begin,
    Error,
}

/// Makes it.
pub fn call(alloc: Global, call: LayerCall, tried: &mut Tried) -> Result<(), Fault> {
    match call {
        LayerCall::NewReader => reader_new(alloc, tried),
        LayerCall::Put(what) => put(alloc, what, tried),
        LayerCall::Own(number) => own(alloc, number, tried),
        LayerCall::Decode => decode_a_batch(alloc, tried),
        LayerCall::Parse => parse_a_text(alloc, tried),
        LayerCall::Step => step_a_statement(alloc, tried),
        LayerCall::Begin => begin_in_a_session(alloc, tried),
        LayerCall::Error => make_an_error(alloc, tried),
    }
}

/// Appends behind `FRONT`.
fn put(alloc: Global, what: Appended, tried: &mut Tried) -> Result<(), Fault> {
    let request = batch(alloc)?;
    let mut out = front(alloc)?;
    if matches!(what, Appended::TokenInPart) {
        out.reserve_exact(11)?;
    }
    put_twice(what, &request, &mut out, tried)
}

fn put_twice(
    what: Appended,
    request: &Request,
    out: &mut Vec<u8>,
    tried: &mut Tried,
) -> Result<(), Fault> {
    match put_once(what, request, out) {
        Err(Fault::Memory) => {
            tried.refuse(out.as_slice() == FRONT.as_slice());
            again(put_once(what, request, out))?;
        }
        put => put?,
    }
    tried.get(out.as_slice())
}

fn put_once(what: Appended, request: &Request, out: &mut Vec<u8>) -> Result<(), Fault> {
    match what {
        Appended::Packet => put_header(out)?,
        Appended::SentPacket => put_sent(out, Kind::Answer, Status::of_answer(true), 2, &DATA)?,
        Appended::Token => put_done(out)?,
        Appended::TokenInPart => put_info(out)?,
        Appended::Request => encode(request, 1, out)?,
    }
    Ok(())
}

fn put_header(out: &mut Vec<u8>) -> Result<(), AllocError> {
    let header = Header {
        kind: Kind::Answer,
        status: Status::of_answer(true),
        length: 72,
        spid: 0,
        packet_id: 1,
        window: 0,
    };
    put_packet(out, header, &DATA)
}

fn put_done(out: &mut Vec<u8>) -> Result<(), Fault> {
    let token = Token::Done {
        status: 0x0010,
        cur_cmd: 0,
        rows: 3,
    };
    if !token.fits() {
        return Err(Fault::Wrong);
    }
    put_token(out, &token)?;
    Ok(())
}

/// A message 50000 `a`, a table of one column `n`, and a row of it.
const TOKENS: [u8; 39] = [
    0xAB, 0x10, 0x00, 0x50, 0xC3, 0x00, 0x00, 0x01, 0x00, 0x01, 0x00, 0x61, 0x00, 0, 0, 0, 0, 0, 0,
    0x81, 0x01, 0x00, 0x00, 0x00, 0x00, 0x00, 0x00, 0x00, 0x38, 0x01, 0x6E, 0x00, 0xD1, 0x05, 0x00,
    0x00, 0x00, 0x79, 0x00,
];

/// Appends the message.
fn put_info(out: &mut Vec<u8>) -> Result<(), Fault> {
    let Some(Ok(lent)) = Tokens::new(&TOKENS, Columns::none()).next() else {
        return Err(Fault::Wrong);
    };
    let token = lent.own(*out.allocator())?;
    if !token.fits() {
        return Err(Fault::Wrong);
    }
    put_token(out, &token)?;
    Ok(())
}

/// The token of this number among them, in memory of its own.
fn own(alloc: Global, number: usize, tried: &mut Tried) -> Result<(), Fault> {
    let mut tokens = Tokens::new(&TOKENS, Columns::none());
    for _ in 0..number {
        let _ = tokens.next();
    }
    let Some(Ok(lent)) = tokens.next() else {
        return Err(Fault::Wrong);
    };
    match lent.own(alloc) {
        Ok(token) => tried.say(kind_of(&token)),
        Err(_) => Err(Fault::Refused),
    }
}

/// What tells the tokens here from each other.
fn kind_of(token: &Token) -> &'static str {
    match token {
        Token::Info(_) => "info",
        Token::Error(_) => "error",
        Token::Columns(_) => "columns",
        Token::Row(_) => "row",
        _ => "other",
    }
}

/// A batch `a`, without a transaction.
const BATCH: [u8; 24] = [
    22, 0, 0, 0, 18, 0, 0, 0, 2, 0, 0, 0, 0, 0, 0, 0, 0, 0, 1, 0, 0, 0, 0x61, 0,
];

fn decode_a_batch(alloc: Global, tried: &mut Tried) -> Result<(), Fault> {
    match decode(alloc, RequestKind::Batch, &BATCH) {
        Ok((descriptor, Request::Batch(text))) => {
            tried.count(descriptor)?;
            tried.count(text.units().len() as u64)
        }
        Err(RequestFault::Memory) => Err(Fault::Refused),
        _ => Err(Fault::Wrong),
    }
}

fn parse_a_text(alloc: Global, tried: &mut Tried) -> Result<(), Fault> {
    let units = units(alloc, b"set x 7;get x")?;
    match ScriptEngine.parse(alloc, units.as_slice()) {
        Ok(Some(statements)) => tried.count(statements.len() as u64),
        Ok(None) => Err(Fault::Wrong),
        Err(_) => Err(Fault::Refused),
    }
}

fn step_a_statement(alloc: Global, tried: &mut Tried) -> Result<(), Fault> {
    let units = units(alloc, b"rows 1 3")?;
    let Some(statements) = ScriptEngine.parse(alloc, units.as_slice())? else {
        return Err(Fault::Wrong);
    };
    match statements.first() {
        Some(statement) => step(alloc, statement, tried),
        None => Err(Fault::Wrong),
    }
}

fn step(alloc: Global, statement: &Statement, tried: &mut Tried) -> Result<(), Fault> {
    let mut tokens = Vec::new(alloc);
    step_twice(alloc, statement, &mut tokens, tried)
}

fn step_twice(
    alloc: Global,
    statement: &Statement,
    tokens: &mut Vec<Token>,
    tried: &mut Tried,
) -> Result<(), Fault> {
    let mut session = Session::new();
    let stepped = ScriptEngine.step(alloc, &mut session, statement, tokens);
    if stepped.is_err() {
        tried.refuse(tokens.is_empty() && session.descriptor() == 0);
        again(ScriptEngine.step(alloc, &mut session, statement, tokens))?;
    }
    tried.count(tokens.len() as u64)
}

fn begin_in_a_session(alloc: Global, tried: &mut Tried) -> Result<(), Fault> {
    let mut tokens = Vec::new(alloc);
    begin_twice(alloc, &mut tokens, tried)
}

fn begin_twice(alloc: Global, tokens: &mut Vec<Token>, tried: &mut Tried) -> Result<(), Fault> {
    let mut session = Session::new();
    if begin_transaction(alloc, &mut session, tokens).is_err() {
        tried.refuse(tokens.is_empty() && session.descriptor() == 0);
        again(begin_transaction(alloc, &mut session, tokens))?;
    }
    tried.count(tokens.len() as u64)?;
    tried.count(session.descriptor())
}

fn make_an_error(alloc: Global, tried: &mut Tried) -> Result<(), Fault> {
    match error_token(alloc, 50001, b"syntax") {
        Ok(token) => tried.say(kind_of(&token)),
        Err(_) => Err(Fault::Refused),
    }
}
