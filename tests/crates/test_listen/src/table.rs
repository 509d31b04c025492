//! A service of one connection, as a program uses it: leased, asked, answered in pieces, cancelled, given
//! back, cleaned, and a server that says what nobody asked for.

use crate::fault::SceneFault;
use crate::words::cancelled_word;
use std::alloc::Global;
use std::fmt::Write;
use tds_client::MessageKind;
use tds_packet::PacketSize;
use tds_service::{Lent, Outcome, Refusal, Service};
use tds_wire::Features;

/// A return status of 5, and a DONE behind it (MS-TDS 2.2.7.18, 2.2.7.6).
const ANSWER: [u8; 18] = [
    0x79, 5, 0, 0, 0, 0xFD, 0, 0, 0xC1, 0, 0, 0, 0, 0, 0, 0, 0, 0,
];

/// A DONE that acknowledges an attention.
const ACKNOWLEDGED: [u8; 13] = [0xFD, 0x20, 0, 0, 0, 0, 0, 0, 0, 0, 0, 0, 0];

/// The end of a reset, and a DONE (MS-TDS 2.2.7.9).
const RESET: [u8; 19] = [
    0xE3, 3, 0, 18, 0, 0, 0xFD, 0, 0, 0xC1, 0, 0, 0, 0, 0, 0, 0, 0, 0,
];

impl From<Refusal> for SceneFault {
    fn from(refusal: Refusal) -> SceneFault {
        match refusal {
            Refusal::Memory => SceneFault::Memory,
            _ => SceneFault::Step,
        }
    }
}

/// Plays it, and says what came of each call.
pub(crate) fn play(alloc: Global) -> Result<String, SceneFault> {
    let size = PacketSize::new(512).ok_or(SceneFault::Step)?;
    let features = Features {
        encryption: false,
        ranks: false,
    };
    let mut service = Service::new(alloc, 1, size, 64, features).ok_or(SceneFault::Step)?;
    let mut text = String::new(alloc);
    answered(alloc, &mut service, &mut text)?;
    cancelled(alloc, &mut service, &mut text)?;
    cleaned(alloc, &mut service, &mut text)?;
    broken(alloc, &mut service, &mut text)?;
    Ok(text)
}

/// A request whose answer comes in two packets, and is cut inside a token.
fn answered(alloc: Global, service: &mut Service, text: &mut String) -> Result<(), SceneFault> {
    note(service.lease()?, text)?;
    if let Err(refusal) = service.lease() {
        writeln!(text, "another lease: {refusal:?}")?;
    }
    ask(alloc, service, 1, text)?;
    came(alloc, service, &ANSWER[..3], false, text)?;
    came(alloc, service, &ANSWER[3..], true, text)
}

/// A request that is cancelled while its answer is on the way, and given back before the
/// acknowledgement has come.
fn cancelled(alloc: Global, service: &mut Service, text: &mut String) -> Result<(), SceneFault> {
    let mut out = Vec::new(alloc);
    ask(alloc, service, 1, text)?;
    let (number, how) = service.cancel(1, &mut out)?;
    let word = cancelled_word(how);
    writeln!(text, "cancel: {word}, {} bytes on {number}", out.len())?;
    came(alloc, service, &ANSWER, true, text)?;
    let (number, rest) = service.give_back(1, &mut out)?;
    writeln!(
        text,
        "given back: {number} is {rest:?}, {} bytes",
        out.len()
    )?;
    came(alloc, service, &ACKNOWLEDGED, true, text)
}

/// The connection is cleaned, and lent again.
fn cleaned(alloc: Global, service: &mut Service, text: &mut String) -> Result<(), SceneFault> {
    note(service.clean(1)?, text)?;
    ask(alloc, service, 2, text)?;
    came(alloc, service, &RESET, true, text)?;
    let (number, rest) = service.cleaned(2)?;
    writeln!(text, "cleaned: {number} is {rest:?}")?;
    note(service.lease()?, text)
}

/// An answer that nobody asked for breaks the connection. It is lost, and its lease is spent.
fn broken(alloc: Global, service: &mut Service, text: &mut String) -> Result<(), SceneFault> {
    came(alloc, service, &ANSWER, true, text)?;
    if let Err(refusal) = service.ask(3, MessageKind::Batch) {
        writeln!(text, "ask: {refusal:?}")?;
    }
    service.lost(1)?;
    if let Err(refusal) = service.ask(3, MessageKind::Batch) {
        writeln!(text, "lost, and then ask: {refusal:?}")?;
    }
    came(alloc, service, &ANSWER, true, text)?;
    note(service.lease()?, text)
}

fn note(lent: Lent, text: &mut String) -> Result<(), SceneFault> {
    let word = if lent.had { "had" } else { "new" };
    writeln!(text, "lease {} of {}, {word}", lent.lease, lent.number)?;
    Ok(())
}

/// Asks for `get`, and sends it in two parts.
fn ask(
    alloc: Global,
    service: &mut Service,
    lease: u64,
    text: &mut String,
) -> Result<(), SceneFault> {
    let mut out = Vec::new(alloc);
    let asked = service.ask(lease, MessageKind::Batch)?;
    service.put(lease, b"g\0e", &mut out)?;
    service.put(lease, b"\0t\0", &mut out)?;
    let number = service.finish(lease, &mut out)?;
    let status = out.as_slice().get(1).copied().unwrap_or(0);
    let request = asked.request;
    writeln!(
        text,
        "request {request} of {number}: {} bytes, status {status:02x}",
        out.len()
    )?;
    Ok(())
}

/// Hears these bytes on the first connection, and says what came of them.
fn came(
    alloc: Global,
    service: &mut Service,
    bytes: &[u8],
    ends: bool,
    text: &mut String,
) -> Result<(), SceneFault> {
    let mut told = Vec::new(alloc);
    match service.came(1, bytes, ends, &mut told) {
        Ok(came) => {
            let word = outcome_word(&came.outcome);
            let count = told.len();
            let lease = came.lease.unwrap_or(0);
            writeln!(
                text,
                "came: {word}, {count} to request {} of lease {lease}",
                came.request
            )?;
        }
        Err(refusal) => writeln!(text, "came: {refusal:?}")?,
    }
    for token in &told {
        writeln!(
            text,
            "  {:02x} at {}, {} bytes",
            token.kind, token.start, token.length
        )?;
    }
    Ok(())
}

fn outcome_word(outcome: &Outcome) -> &'static str {
    match outcome {
        Outcome::More => "more",
        Outcome::Finished => "finished",
        Outcome::Acknowledged => "acknowledged",
        Outcome::Fault(_) => "fault",
    }
}
