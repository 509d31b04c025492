//! A client by itself, for packets of at most 512 bytes.
//!
//! ```text
//! new SIZE          goes on with a new client, for packets of this size
//! mark full|keep    asks for a reset; nothing, or the refusal's number
//! start REQUEST     nothing, or the refusal's number
//! send              `more` or `last`, and the bytes that go out; or the refusal's number
//! send_head, send_tail   the same with their count, and the first eight of them or the last four
//! ask REQUEST       starts it and sends one packet: `more` or `last`
//! start_message KIND   a batch, procedure, bulk_load or transaction; nothing, or the refusal's number
//! put BYTES         the bytes that go out, or the refusal's number
//! put_head BYTES    the same with their count, and the first eight of them
//! finish            the bytes that go out, or the refusal's number
//! cancel            what it comes to, and the bytes that go out
//! take BYTES        takes the packet that these bytes spell: `more`, `finished`, `acknowledged`, or the
//!                   fault's number, and that of its token
//! lost              the connection is lost
//! state, descriptor, marked   what the client is at
//! told              the bytes that spell all tokens which were told
//! refusals          the numbers of the refusals
//! ```

use crate::asks::request;
use crate::case::{Case, Layer, Stop};
use crate::packets::reset_word;
use crate::said::Said;
use crate::spelling::{reader, say_tokens, size_of};
use crate::words::Words;
use std::alloc::Global;
use tds_client::{
    Cancelled, Client, ClientFault, ClientRefusal, ClientState, MessageKind, Sent, Taken,
};
use tds_packet::{Direction, Kind, PacketReader, Reset};
use tds_token::Token;

/// A client with what its calls need. Each is made once, and cleared where it is used again.
#[derive(Drop)]
struct ClientCalls {
    alloc: Global,
    client: Client,
    reader: PacketReader,
    /// All tokens that the client has told.
    told: Vec<Token>,
    /// What the last call was given, or appended.
    bytes: Vec<u8>,
}

/// Plays a case.
pub fn play(alloc: Global, case: &mut Case<'_>) -> Result<(), Stop> {
    let mut calls = ClientCalls {
        alloc,
        client: Client::new(alloc, size_of(512)?),
        reader: reader(alloc, Direction::ToClient)?,
        told: Vec::new(alloc),
        bytes: Vec::new(alloc),
    };
    case.play(alloc, &mut calls)
}

impl Layer for ClientCalls {
    fn call(&mut self, words: &mut Words<'_>, said: &mut Said) -> Result<(), Stop> {
        match words.next() {
            "new" => self.renew(words),
            "start" => self.start(words, said),
            "ask" => self.ask(words, said),
            "send" => self.send("", said),
            "send_head" => self.send("head", said),
            "send_tail" => self.send("tail", said),
            "start_message" => self.start_message(words.next(), said),
            "put" => self.put("", words, said),
            "put_head" => self.put("head", words, said),
            "finish" => self.finish(said),
            "cancel" => self.cancel(said),
            "take" => self.take(words, said),
            "told" => say_tokens(self.alloc, self.told.as_slice(), said),
            "mark" => mark(&mut self.client, words.next(), said),
            "lost" => {
                self.client.lost();
                Ok(())
            }
            word => look(&self.client, word, said),
        }
    }
}

impl ClientCalls {
    fn renew(&mut self, words: &mut Words<'_>) -> Result<(), Stop> {
        self.client = Client::new(self.alloc, size_of(words.number()?)?);
        Ok(())
    }

    fn start(&mut self, words: &mut Words<'_>, said: &mut Said) -> Result<(), Stop> {
        let request = request(self.alloc, words)?;
        match self.client.start(&request) {
            Ok(()) => Ok(()),
            Err(refusal) => say_refusal(&refusal, said),
        }
    }

    fn ask(&mut self, words: &mut Words<'_>, said: &mut Said) -> Result<(), Stop> {
        self.start(words, said)?;
        self.bytes.clear();
        match self.client.send(&mut self.bytes) {
            Ok(sent) => said.word(sent_word(sent))?,
            Err(refusal) => say_refusal(&refusal, said)?,
        }
        Ok(())
    }

    fn send(&mut self, part: &str, said: &mut Said) -> Result<(), Stop> {
        self.bytes.clear();
        match self.client.send(&mut self.bytes) {
            Ok(sent) => said.word(sent_word(sent))?,
            Err(refusal) => say_refusal(&refusal, said)?,
        }
        say_part(self.bytes.as_slice(), part, said)
    }

    fn start_message(&mut self, word: &str, said: &mut Said) -> Result<(), Stop> {
        let kind = match word {
            "batch" => MessageKind::Batch,
            "procedure" => MessageKind::Procedure,
            "bulk_load" => MessageKind::BulkLoad,
            "transaction" => MessageKind::Transaction,
            _ => return Err(Stop::Unread),
        };
        match self.client.start_message(kind) {
            Ok(()) => Ok(()),
            Err(refusal) => say_refusal(&refusal, said),
        }
    }

    fn put(&mut self, part: &str, words: &mut Words<'_>, said: &mut Said) -> Result<(), Stop> {
        let mut out = Vec::new(self.alloc);
        words.bytes(&mut self.bytes)?;
        if let Err(refusal) = self.client.put(self.bytes.as_slice(), &mut out) {
            say_refusal(&refusal, said)?;
        }
        say_part(out.as_slice(), part, said)
    }

    fn finish(&mut self, said: &mut Said) -> Result<(), Stop> {
        self.bytes.clear();
        if let Err(refusal) = self.client.finish(&mut self.bytes) {
            say_refusal(&refusal, said)?;
        }
        said.bytes(self.bytes.as_slice())?;
        Ok(())
    }

    fn cancel(&mut self, said: &mut Said) -> Result<(), Stop> {
        self.bytes.clear();
        match self.client.cancel(&mut self.bytes) {
            Ok(cancelled) => said.word(cancelled_word(cancelled))?,
            Err(refusal) => say_refusal(&refusal, said)?,
        }
        said.bytes(self.bytes.as_slice())?;
        Ok(())
    }

    fn take(&mut self, words: &mut Words<'_>, said: &mut Said) -> Result<(), Stop> {
        words.bytes(&mut self.bytes)?;
        self.reader.done();
        if self.reader.feed(self.bytes.as_slice()).is_err() {
            return Err(Stop::Unread);
        }
        let told = self.told.len();
        match self.reader.packet() {
            Some(packet) if packet.header.kind == Kind::Answer => {
                match self.client.take(packet, &mut self.told) {
                    Ok(taken) => said.word(taken_word(taken))?,
                    Err(fault) => say_fault(&fault, self.told.len() == told, said)?,
                }
                Ok(())
            }
            _ => Err(Stop::Unread),
        }
    }
}

fn mark(client: &mut Client, word: &str, said: &mut Said) -> Result<(), Stop> {
    let reset = match word {
        "full" => Reset::Full,
        "keep" => Reset::KeepTransaction,
        _ => return Err(Stop::Unread),
    };
    match client.mark_reset(reset) {
        Ok(()) => Ok(()),
        Err(refusal) => say_refusal(&refusal, said),
    }
}

/// Says what a client is at.
fn look(client: &Client, word: &str, said: &mut Said) -> Result<(), Stop> {
    match word {
        "state" => say_state(client, said),
        "descriptor" => Ok(said.number(client.descriptor())?),
        "marked" => Ok(said.word(reset_word(client.reset_mark()))?),
        "refusals" => say_refusals(said),
        _ => Err(Stop::Unread),
    }
}

fn say_state(client: &Client, said: &mut Said) -> Result<(), Stop> {
    match client.state() {
        ClientState::Idle => said.word("idle")?,
        ClientState::Sending => said.word("sending")?,
        ClientState::Reading => said.word("reading")?,
        ClientState::Cancelling => said.word("cancelling")?,
        ClientState::Broken(fault) => said.numbered("broken", u64::from(fault.number()))?,
    }
    Ok(())
}

fn say_refusal(refusal: &ClientRefusal, said: &mut Said) -> Result<(), Stop> {
    said.numbered("refused", u64::from(refusal.number()))?;
    Ok(())
}

fn say_refusals(said: &mut Said) -> Result<(), Stop> {
    said.number(u64::from(ClientRefusal::NotIdle.number()))?;
    said.number(u64::from(ClientRefusal::NotSending.number()))?;
    said.number(u64::from(ClientRefusal::Broken.number()))?;
    said.number(u64::from(ClientRefusal::Memory.number()))?;
    Ok(())
}

/// Says a fault, which tells no token.
fn say_fault(fault: &ClientFault, tells_nothing: bool, said: &mut Said) -> Result<(), Stop> {
    said.numbered("fault", u64::from(fault.number()))?;
    if let ClientFault::Token(token) = fault {
        said.numbered("token", u64::from(token.number()))?;
    }
    if !tells_nothing {
        said.word("and tokens are told")?;
    }
    Ok(())
}

/// Says bytes; or their count, and the first eight or the last four of them.
fn say_part(bytes: &[u8], part: &str, said: &mut Said) -> Result<(), Stop> {
    match (part, bytes) {
        ("head", [a, b, c, d, e, f, g, h, ..]) => {
            said.number(bytes.len() as u64)?;
            said.bytes(&[*a, *b, *c, *d, *e, *f, *g, *h])?;
        }
        ("tail", [.., a, b, c, d]) => {
            said.number(bytes.len() as u64)?;
            said.bytes(&[*a, *b, *c, *d])?;
        }
        _ => said.bytes(bytes)?,
    }
    Ok(())
}

pub fn sent_word(sent: Sent) -> &'static str {
    match sent {
        Sent::More => "more",
        Sent::Last => "last",
    }
}

fn cancelled_word(cancelled: Cancelled) -> &'static str {
    match cancelled {
        Cancelled::Nothing => "nothing",
        Cancelled::Already => "already",
        Cancelled::Unsent => "unsent",
        Cancelled::Asked => "asked",
    }
}

fn taken_word(taken: Taken) -> &'static str {
    match taken {
        Taken::More => "more",
        Taken::Finished => "finished",
        Taken::Acknowledged => "acknowledged",
        Taken::NoMemory => "no memory",
    }
}
