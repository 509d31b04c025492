//! Exchanges of a service, to be measured: a lease, a request of one packet, its answer of one, the return.

use crate::fault::SceneFault;
use std::io;
use tds_client::MessageKind;
use tds_packet::PacketSize;
use tds_service::{Outcome, Refusal, Service};
use tds_wire::{Features, Token};

/// A status of 5, and a DONE that tells one row (MS-TDS 2.2.7.18, 2.2.7.6).
const ANSWER: [u8; 18] = [
    0x79, 5, 0, 0, 0, 0xFD, 0x10, 0, 0xC1, 0, 1, 0, 0, 0, 0, 0, 0, 0,
];

/// The same behind the end of a reset, for which a connection asks that was lent before (MS-TDS 2.2.7.9).
const ANSWER_OF_A_RESET: [u8; 24] = [
    0xE3, 3, 0, 18, 0, 0, 0x79, 5, 0, 0, 0, 0xFD, 0x10, 0, 0xC1, 0, 1, 0, 0, 0, 0, 0, 0, 0,
];

/// A service, and what its calls write.
#[derive(Drop)]
struct Exchanging {
    service: Service,
    out: Vec<u8>,
    told: Vec<Token>,
    /// How many bytes it asked with, and how many tokens were told.
    bytes: u64,
    tokens: u64,
}

/// Does so many exchanges, and prints the bytes of all requests and how many tokens were told.
pub(crate) fn repeat_exchanges(rt: &HostRuntime, words: &[String]) -> io::Result<()> {
    let times = match words {
        [times] => times.as_str().parse::<u64>().unwrap_or(1),
        _ => return Err(io::Error::from(io::ErrorKind::InvalidInput)),
    };
    let mut it = begun(rt)?;
    it.exchange(&ANSWER)?;
    for _ in 0..times {
        it.exchange(&ANSWER_OF_A_RESET)?;
    }
    println!(rt; "{} {}", it.bytes, it.tokens)
}

/// A service of 64 connections, none of which is there yet.
fn begun(rt: &HostRuntime) -> Result<Exchanging, SceneFault> {
    let alloc = rt.alloc();
    let size = PacketSize::new(4096).ok_or(SceneFault::Step)?;
    let features = Features {
        encryption: false,
        ranks: false,
    };
    Ok(Exchanging {
        service: Service::new(alloc, 64, size, 64, features).ok_or(SceneFault::Step)?,
        out: Vec::new(alloc),
        told: Vec::new(alloc),
        bytes: 0,
        tokens: 0,
    })
}

impl Exchanging {
    fn exchange(&mut self, answer: &[u8]) -> Result<(), SceneFault> {
        self.out.clear();
        self.told.clear();
        let lent = self.service.lease()?;
        self.service.ask(lent.lease, MessageKind::Batch)?;
        self.service
            .put(lent.lease, b"g\0e\0t\0 \0a\0", &mut self.out)?;
        self.service.finish(lent.lease, &mut self.out)?;
        self.hear(lent.number, answer)?;
        self.service.give_back(lent.lease, &mut self.out)?;
        self.bytes = self.bytes.wrapping_add(self.out.len() as u64);
        self.tokens = self.tokens.wrapping_add(self.told.len() as u64);
        Ok(())
    }

    fn hear(&mut self, number: u64, answer: &[u8]) -> Result<(), SceneFault> {
        match self.service.came(number, answer, true, &mut self.told) {
            Ok(came) => match came.outcome {
                Outcome::Finished => Ok(()),
                _ => Err(SceneFault::Step),
            },
            Err(Refusal::Memory) => Err(SceneFault::Memory),
            Err(_) => Err(SceneFault::Step),
        }
    }
}
