//! Exchanges of a client, to be measured: a reset is asked for, a batch goes out in one packet, and its answer of one is
//! heard.

use crate::fault::SceneFault;
use std::io;
use tds_client::{Client, ClientRefusal, MessageKind, Taken};
use tds_listen::{hear_end, next_to, next_whole};
use tds_packet::{Direction, Header, PacketSize, Reset};
use tds_wire::{Features, Token, TokenParser};

/// The end of a reset, a status of 5, and a DONE that tells one row (MS-TDS 2.2.7.9, 2.2.7.18, 2.2.7.6), in a packet.
const ANSWER: [u8; 32] = [
    4, 1, 0, 32, 0, 0, 1, 0, 0xE3, 3, 0, 18, 0, 0, 0x79, 5, 0, 0, 0, 0xFD, 0x10, 0, 0xC1, 0, 1, 0,
    0, 0, 0, 0, 0, 0,
];

/// A client, and what its calls write.
#[derive(Drop)]
struct Asking {
    client: Client,
    size: PacketSize,
    parser: TokenParser,
    out: Vec<u8>,
    told: Vec<Token>,
    /// How many bytes it asked with, and how many tokens were told.
    bytes: u64,
    tokens: u64,
}

/// Does so many exchanges, and prints the bytes of all requests and how many tokens were told.
pub(crate) fn repeat_asking(rt: &HostRuntime, words: &[String]) -> io::Result<()> {
    let times = match words {
        [times] => times.as_str().parse::<u64>().unwrap_or(1),
        _ => return Err(io::Error::from(io::ErrorKind::InvalidInput)),
    };
    let mut it = begun(rt)?;
    for _ in 0..times {
        it.exchange(&ANSWER)?;
    }
    println!(rt; "{} {}", it.bytes, it.tokens)
}

/// A client in idle, before a server that agreed on no feature.
fn begun(rt: &HostRuntime) -> Result<Asking, SceneFault> {
    let alloc = rt.alloc();
    let size = PacketSize::new(4096).ok_or(SceneFault::Step)?;
    let features = Features {
        encryption: false,
        ranks: false,
    };
    Ok(Asking {
        client: Client::new(alloc, size),
        size,
        parser: TokenParser::new(alloc, 64, features)?,
        out: Vec::new(alloc),
        told: Vec::new(alloc),
        bytes: 0,
        tokens: 0,
    })
}

impl Asking {
    fn exchange(&mut self, answer: &[u8]) -> Result<(), SceneFault> {
        self.out.clear();
        self.told.clear();
        if self.client.mark_reset(Reset::Full).is_err() || self.ask().is_err() {
            return Err(SceneFault::Step);
        }
        let Some(first) = answer.first_chunk::<8>() else {
            return Err(SceneFault::Step);
        };
        let Ok(header) = Header::read(first, self.size, Direction::ToClient) else {
            return Err(SceneFault::Step);
        };
        self.hear(&answer[8..])?;
        if header.status.ends() {
            match hear_end(&mut self.client, &mut self.parser) {
                Ok(Taken::Finished) => {}
                _ => return Err(SceneFault::Step),
            }
        }
        self.bytes = self.bytes.wrapping_add(self.out.len() as u64);
        self.tokens = self.tokens.wrapping_add(self.told.len() as u64);
        Ok(())
    }

    /// Asks a batch, in one packet.
    fn ask(&mut self) -> Result<(), ClientRefusal> {
        self.client.start_message(MessageKind::Batch)?;
        self.client.put(b"g\0e\0t\0 \0a\0", &mut self.out)?;
        self.client.finish(&mut self.out)
    }

    /// Hears all tokens of a packet's data.
    fn hear(&mut self, bytes: &[u8]) -> Result<(), SceneFault> {
        let mut rest = bytes;
        let mut token = None;
        for _ in 0..bytes.len() {
            if rest.is_empty() {
                return Ok(());
            }
            let count = self.hear_one(rest, &mut token)?;
            rest = rest.get(count..).unwrap_or(&[]);
            if let Some(token) = token {
                self.told.push(token)?;
            }
        }
        Ok(())
    }

    /// Hears up to the end of one token.
    fn hear_one(&mut self, bytes: &[u8], token: &mut Option<Token>) -> Result<usize, SceneFault> {
        match next_whole(&mut self.client, &mut self.parser, bytes, token) {
            Ok(0) => {}
            Ok(count) => return Ok(count),
            Err(_) => return Err(SceneFault::Step),
        }
        match next_to(&mut self.client, &mut self.parser, bytes, token) {
            Ok(count) => Ok(count),
            Err(_) => Err(SceneFault::Step),
        }
    }
}
