//! A server by itself, for packets of at most 512 bytes. Its layer is `server`, `rolling back server`
//! where an attention rolls back what it stopped, or `counting server` where its engine is another.
//!
//! ```text
//! take BYTES    takes the packet that these bytes spell: `more`, `request`, `dropped` or
//!               `acknowledged`, and the reply; or the fault's number
//! work          `idle`, or `step` or `finished` and the packet
//! heads         works until there is nothing to do: how many packets there are, how many of them end
//!               a message, and status and PacketID of the first, the 255th to 257th and the last
//! lose          the connection is lost
//! session       whether it is as a connection begins with it: `new` or `used`
//! descriptor    the session's
//! steps         how many steps the counting engine did
//! ```

use crate::case::{Case, Layer, Stop};
use crate::counting::Counts;
use crate::said::Said;
use crate::spelling::{reader, size_of};
use crate::words::Words;
use std::alloc::Global;
use std::cell::Cell;
use tds_packet::{Direction, PacketReader};
use tds_server::{Engine, OnAttention, ScriptEngine, Server, ServerTook, Session, Worked};

/// A server with what its calls need. Each is made once, and cleared where it is used again.
#[derive(Drop)]
struct ServerCalls<'a, E: Engine + Drop> {
    alloc: Global,
    server: Server<E>,
    reader: PacketReader,
    bytes: Vec<u8>,
    /// What the last call appended.
    out: Vec<u8>,
    steps: &'a Cell<u32>,
}

/// Plays a case.
pub fn play(alloc: Global, layer: &str, case: &mut Case<'_>) -> Result<(), Stop> {
    let steps = Cell::new(0);
    match layer {
        "server" => play_on(alloc, ScriptEngine, OnAttention::Keep, &steps, case),
        "rolling back server" => {
            play_on(alloc, ScriptEngine, OnAttention::RollBack, &steps, case)
        }
        "counting server" => {
            let engine = Counts { steps: &steps };
            play_on(alloc, engine, OnAttention::Keep, &steps, case)
        }
        _ => Err(Stop::Unread),
    }
}

fn play_on<E: Engine + Drop>(
    alloc: Global,
    engine: E,
    on_attention: OnAttention,
    steps: &Cell<u32>,
    case: &mut Case<'_>,
) -> Result<(), Stop> {
    let size = size_of(512)?;
    let mut calls = ServerCalls {
        alloc,
        reader: reader(alloc, Direction::ToServer)?,
        server: Server::with_attention(alloc, engine, size, on_attention),
        bytes: Vec::new(alloc),
        out: Vec::new(alloc),
        steps,
    };
    case.play(alloc, &mut calls)
}

impl<E: Engine + Drop> Layer for ServerCalls<'_, E> {
    fn call(&mut self, words: &mut Words<'_>, said: &mut Said) -> Result<(), Stop> {
        match words.next() {
            "take" => self.take(words, said),
            "work" => self.work(said),
            "heads" => self.heads(said),
            "lose" => {
                self.server.lost();
                Ok(())
            }
            "session" => {
                let is_new = *self.server.session() == Session::new();
                Ok(said.word(if is_new { "new" } else { "used" })?)
            }
            "descriptor" => Ok(said.number(self.server.session().descriptor())?),
            "steps" => Ok(said.number(u64::from(self.steps.get()))?),
            _ => Err(Stop::Unread),
        }
    }
}

impl<E: Engine + Drop> ServerCalls<'_, E> {
    fn take(&mut self, words: &mut Words<'_>, said: &mut Said) -> Result<(), Stop> {
        words.bytes(&mut self.bytes)?;
        self.reader.done();
        self.out.clear();
        if self.reader.feed(self.bytes.as_slice()).is_err() {
            return Err(Stop::Unread);
        }
        match self.reader.packet() {
            Some(packet) if packet.header.kind.direction() == Direction::ToServer => {
                match self.server.take(packet, &mut self.out) {
                    Ok(took) => said.word(took_word(took))?,
                    Err(fault) => said.numbered("fault", u64::from(fault.number()))?,
                }
            }
            _ => return Err(Stop::Unread),
        }
        said.bytes(self.out.as_slice())?;
        Ok(())
    }

    /// One call of `work`, whose packet is in `out` then.
    fn step(&mut self) -> Result<Worked, Stop> {
        self.out.clear();
        Ok(self.server.work(&mut self.out)?)
    }

    fn work(&mut self, said: &mut Said) -> Result<(), Stop> {
        said.word(worked_word(self.step()?))?;
        said.bytes(self.out.as_slice())?;
        Ok(())
    }

    fn heads(&mut self, said: &mut Said) -> Result<(), Stop> {
        let mut heads = Vec::new(self.alloc);
        for _ in 0..1000 {
            if self.step()? == Worked::Idle {
                break;
            }
            heads.push(head_of(self.out.as_slice())?)?;
        }
        say_heads(heads.as_slice(), said)
    }
}

/// Status and PacketID of a packet.
fn head_of(packet: &[u8]) -> Result<[u8; 2], Stop> {
    match packet {
        [_, status, _, _, _, _, id, ..] => Ok([*status, *id]),
        _ => Err(Stop::Unread),
    }
}

fn say_heads(heads: &[[u8; 2]], said: &mut Said) -> Result<(), Stop> {
    let mut ends = 0u64;
    for [status, _] in heads {
        if *status != 0 {
            ends = ends.saturating_add(1);
        }
    }
    said.number(heads.len() as u64)?;
    said.number(ends)?;
    for place in [0, 254, 255, 256, heads.len().saturating_sub(1)] {
        if let Some(head) = heads.get(place) {
            said.bytes(head)?;
        }
    }
    Ok(())
}

fn took_word(took: ServerTook) -> &'static str {
    match took {
        ServerTook::More => "more",
        ServerTook::Request => "request",
        ServerTook::Dropped => "dropped",
        ServerTook::Acknowledged => "acknowledged",
        ServerTook::NoMemory => "no memory",
    }
}

fn worked_word(worked: Worked) -> &'static str {
    match worked {
        Worked::Idle => "idle",
        Worked::Step => "step",
        Worked::Finished => "finished",
    }
}
