//! Requests by themselves, as the data of their messages.
//!
//! ```text
//! encode DESCRIPTOR REQUEST        its kind, and the message, behind a byte AA that was there before
//! decode batch|transaction BYTES   the descriptor and the request, or the fault's number
//! fronts batch|transaction BYTES   the fault's number of each front of the bytes, 0 for none
//! again DESCRIPTOR REQUEST         the request that is decoded of what is encoded
//! lawful REQUEST                   `unlawful` where there is no such request
//! ```

use crate::asks::request;
use crate::case::{Case, Layer, Stop};
use crate::said::Said;
use crate::words::Words;
use std::alloc::Global;
use tds_request::{Isolation, Request, RequestKind, decode, encode, laws};

#[derive(Drop)]
struct Requests {
    alloc: Global,
    bytes: Vec<u8>,
}

/// Plays a case.
pub fn play(alloc: Global, case: &mut Case<'_>) -> Result<(), Stop> {
    let mut requests = Requests {
        alloc,
        bytes: Vec::new(alloc),
    };
    case.play(alloc, &mut requests)
}

impl Layer for Requests {
    fn call(&mut self, words: &mut Words<'_>, said: &mut Said) -> Result<(), Stop> {
        match words.next() {
            "encode" => self.encode(words, said),
            "decode" => self.decode(words, said),
            "fronts" => self.fronts(words, said),
            "again" => self.again(words, said),
            "lawful" => {
                let _ = request(self.alloc, words)?;
                Ok(())
            }
            _ => Err(Stop::Unread),
        }
    }
}

fn kind_of(word: &str) -> Result<RequestKind, Stop> {
    match word {
        "batch" => Ok(RequestKind::Batch),
        "transaction" => Ok(RequestKind::Transaction),
        _ => Err(Stop::Unread),
    }
}

impl Requests {
    fn encode(&mut self, words: &mut Words<'_>, said: &mut Said) -> Result<(), Stop> {
        let descriptor = words.number()?;
        let request = request(self.alloc, words)?;
        said.word(match request.kind() {
            RequestKind::Batch => "batch",
            RequestKind::Transaction => "transaction",
        })?;
        self.bytes.clear();
        self.bytes.push(0xAA)?;
        encode(&request, descriptor, &mut self.bytes)?;
        said.bytes(self.bytes.as_slice())?;
        Ok(())
    }

    fn decode(&mut self, words: &mut Words<'_>, said: &mut Said) -> Result<(), Stop> {
        let kind = kind_of(words.next())?;
        words.bytes(&mut self.bytes)?;
        match decode(self.alloc, kind, self.bytes.as_slice()) {
            Ok((descriptor, request)) => {
                said.number(descriptor)?;
                say_request(&request, said)
            }
            Err(fault) => {
                said.numbered("fault", u64::from(fault.again().number()))?;
                Ok(())
            }
        }
    }

    fn fronts(&mut self, words: &mut Words<'_>, said: &mut Said) -> Result<(), Stop> {
        let kind = kind_of(words.next())?;
        words.bytes(&mut self.bytes)?;
        say_fronts(self.alloc, kind, self.bytes.as_slice(), said)
    }

    fn again(&mut self, words: &mut Words<'_>, said: &mut Said) -> Result<(), Stop> {
        let descriptor = words.number()?;
        let request = request(self.alloc, words)?;
        match laws::decodes_again(self.alloc, &request, descriptor) {
            Ok((_, again)) => say_request(&again, said),
            Err(_) => Err(Stop::Memory),
        }
    }
}

fn say_fronts(alloc: Global, kind: RequestKind, bytes: &[u8], said: &mut Said) -> Result<(), Stop> {
    for length in 0..=bytes.len() {
        let (front, _) = bytes.split_at(length);
        said.number(u64::from(fault_of(alloc, kind, front)))?;
    }
    Ok(())
}

/// The number of the fault of these bytes, or 0.
fn fault_of(alloc: Global, kind: RequestKind, bytes: &[u8]) -> u8 {
    match decode(alloc, kind, bytes) {
        Ok(_) => 0,
        Err(fault) => fault.number(),
    }
}

fn say_request(request: &Request, said: &mut Said) -> Result<(), Stop> {
    match request {
        Request::Begin(level) => said.numbered("begin", u64::from(level.get()))?,
        Request::Batch(text) => say_units(text.units(), said)?,
        Request::Commit(next) => say_end("commit", *next, said)?,
        Request::Rollback(next) => say_end("rollback", *next, said)?,
    }
    Ok(())
}

fn say_end(word: &str, next: Option<Isolation>, said: &mut Said) -> Result<(), Stop> {
    said.word(word)?;
    if let Some(level) = next {
        said.number(u64::from(level.get()))?;
    }
    Ok(())
}

fn say_units(units: &[u16], said: &mut Said) -> Result<(), Stop> {
    said.word("batch")?;
    for unit in units {
        said.bytes(&unit.to_le_bytes())?;
    }
    Ok(())
}
