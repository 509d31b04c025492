//! A client before any server, and what is done to it.

use crate::fault::SceneFault;
use crate::words::{cancelled_word, fault_text, mark_word, state_text, taken_word};
use std::alloc::Global;
use std::fmt::Write;
use tds_client::{Client, Sent};
use tds_listen::{hear_end, next};
use tds_packet::{PacketSize, Reset};
use tds_request::Request;
use tds_wire::{Features, TokenParser};

/// A client and a parser over what it is answered.
#[derive(Drop)]
pub(crate) struct Player {
    client: Client,
    parser: TokenParser,
    out: Vec<u8>,
}

impl Player {
    /// A client in idle, before a server that agreed on no feature.
    pub(crate) fn new(alloc: Global) -> Result<Player, SceneFault> {
        let Some(size) = PacketSize::new(4096) else {
            return Err(SceneFault::Step);
        };
        let features = Features {
            encryption: false,
            ranks: false,
        };
        Ok(Player {
            client: Client::new(alloc, size),
            parser: TokenParser::new(alloc, 64, features)?,
            out: Vec::new(alloc),
        })
    }

    /// Does a step, and says what came of it. Bytes come in pieces of this size.
    pub(crate) fn step(
        &mut self,
        alloc: Global,
        step: &str,
        size: usize,
    ) -> Result<String, SceneFault> {
        if let Some(digits) = step.strip_prefix("hear ") {
            return self.hear(alloc, digits, size);
        }
        let text = match step {
            "ask" => String::from_str(alloc, self.ask()?)?,
            "cancel" => String::from_str(alloc, self.cancel()?)?,
            "reset full" => String::from_str(alloc, self.mark(Reset::Full)?)?,
            "reset keep" => String::from_str(alloc, self.mark(Reset::KeepTransaction)?)?,
            "end" => self.end(alloc)?,
            "descriptor" => format!(in alloc; "{}", self.client.descriptor())?,
            "mark" => String::from_str(alloc, mark_word(self.client.reset_mark()))?,
            "state" => state_text(alloc, &self.client.state())?,
            _ => return Err(SceneFault::Step),
        };
        Ok(text)
    }

    /// Sends a request.
    fn ask(&mut self) -> Result<&'static str, SceneFault> {
        if self.client.start(&Request::Rollback(None)).is_err() {
            return Ok("refused");
        }
        self.out.clear();
        match self.client.send(&mut self.out) {
            Ok(Sent::Last) => Ok("sent"),
            _ => Err(SceneFault::Step),
        }
    }

    fn cancel(&mut self) -> Result<&'static str, SceneFault> {
        self.out.clear();
        match self.client.cancel(&mut self.out) {
            Ok(cancelled) => Ok(cancelled_word(cancelled)),
            Err(_) => Err(SceneFault::Step),
        }
    }

    fn mark(&mut self, reset: Reset) -> Result<&'static str, SceneFault> {
        match self.client.mark_reset(reset) {
            Ok(()) => Ok("marked"),
            Err(_) => Ok("refused"),
        }
    }

    fn end(&mut self, alloc: Global) -> Result<String, SceneFault> {
        let text = match hear_end(&mut self.client, &mut self.parser) {
            Ok(taken) => String::from_str(alloc, taken_word(taken))?,
            Err(fault) => fault_text(alloc, &fault)?,
        };
        Ok(text)
    }

    /// Hears the bytes that these words spell: which tokens are told, each by its first byte and its
    /// place in the message, and the fault if there is one.
    fn hear(&mut self, alloc: Global, digits: &str, size: usize) -> Result<String, SceneFault> {
        let mut bytes = Vec::new(alloc);
        for word in digits.split_whitespace() {
            match hex::decode(alloc, word) {
                Ok(more) => bytes.extend_from_slice(more.as_slice())?,
                Err(_) => return Err(SceneFault::Step),
            }
        }
        let mut told = String::new(alloc);
        let mut left = bytes.as_slice();
        for _ in 0..bytes.len() {
            if left.is_empty() {
                break;
            }
            let (piece, others) = left.split_at(left.len().min(size.max(1)));
            if !self.hear_piece(alloc, piece, &mut told)? {
                break;
            }
            left = others;
        }
        if told.is_empty() {
            told.push_str("nothing")?;
        }
        Ok(told)
    }

    /// Hears a piece. Whether there was no fault.
    fn hear_piece(
        &mut self,
        alloc: Global,
        piece: &[u8],
        told: &mut String,
    ) -> Result<bool, SceneFault> {
        let mut left = piece;
        for _ in 0..piece.len() {
            if left.is_empty() {
                break;
            }
            let space = if told.is_empty() { "" } else { " " };
            match next(&mut self.client, &mut self.parser, left) {
                Ok(heard) => {
                    if let Some(token) = heard.token {
                        write!(told, "{space}{:02X}@{}", token.kind, token.start)?;
                    }
                    left = &left[heard.count..];
                }
                Err(fault) => {
                    write!(told, "{space}{}", fault_text(alloc, &fault)?.as_str())?;
                    return Ok(false);
                }
            }
        }
        Ok(true)
    }
}
