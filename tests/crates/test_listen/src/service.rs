//! One connection of a service, through two requests: one with a reset, and one that is cancelled.

use crate::fault::SceneFault;
use crate::words::{cancelled_word, state_text, taken_word};
use std::alloc::Global;
use std::fmt::Write;
use tds_client::{ClientRefusal, MessageKind};
use tds_listen::ListenFault;
use tds_packet::{PacketSize, Reset};
use tds_service::Connection;
use tds_wire::Features;

/// The end of a reset, and a DONE (MS-TDS 2.2.7.9, 2.2.7.6).
const RESET: [u8; 19] = [
    0xE3, 3, 0, 18, 0, 0, 0xFD, 0, 0, 0xC1, 0, 0, 0, 0, 0, 0, 0, 0, 0,
];

/// A DONE that acknowledges an attention.
const ACKNOWLEDGED: [u8; 13] = [0xFD, 0x20, 0, 0, 0, 0, 0, 0, 0, 0, 0, 0, 0];

impl From<ClientRefusal> for SceneFault {
    fn from(refusal: ClientRefusal) -> SceneFault {
        match refusal {
            ClientRefusal::Memory => SceneFault::Memory,
            _ => SceneFault::Step,
        }
    }
}

impl From<ListenFault> for SceneFault {
    fn from(_: ListenFault) -> SceneFault {
        SceneFault::Step
    }
}

/// Plays both requests, and says what came of each call.
pub(crate) fn play(alloc: Global) -> Result<String, SceneFault> {
    let size = PacketSize::new(512).ok_or(SceneFault::Step)?;
    let features = Features {
        encryption: false,
        ranks: false,
    };
    let mut connection = Connection::new(alloc, size, 64, features)?;
    let mut text = String::new(alloc);
    connection.mark(Reset::Full)?;
    ask(alloc, &mut connection, &mut text)?;
    end(&mut connection, &RESET, &mut text)?;
    ask(alloc, &mut connection, &mut text)?;
    cancel(alloc, &mut connection, &mut text)?;
    end(&mut connection, &ACKNOWLEDGED, &mut text)?;
    let state = state_text(alloc, &connection.state())?;
    connection.lost();
    let broken = state_text(alloc, &connection.state())?;
    writeln!(
        text,
        "{} asked, {state}, and lost: {broken}",
        connection.asked()
    )?;
    Ok(text)
}

/// Asks for `get`, and sends it in two parts.
fn ask(alloc: Global, connection: &mut Connection, text: &mut String) -> Result<(), SceneFault> {
    let mut out = Vec::new(alloc);
    let number = connection.ask(MessageKind::Batch)?;
    connection.put(b"g\0e", &mut out)?;
    connection.put(b"\0t\0", &mut out)?;
    connection.finish(&mut out)?;
    let status = out.as_slice().get(1).copied().unwrap_or(0);
    writeln!(
        text,
        "request {number}: {} bytes, status {status:02x}",
        out.len()
    )?;
    Ok(())
}

fn cancel(alloc: Global, connection: &mut Connection, text: &mut String) -> Result<(), SceneFault> {
    let mut out = Vec::new(alloc);
    let word = cancelled_word(connection.cancel(&mut out)?);
    writeln!(text, "cancel: {word}, {} bytes", out.len())?;
    Ok(())
}

/// Hears these bytes and the end of their message.
fn end(connection: &mut Connection, bytes: &[u8], text: &mut String) -> Result<(), SceneFault> {
    let mut rest = bytes;
    let mut told = 0u32;
    for _ in 0..bytes.len() {
        if rest.is_empty() {
            break;
        }
        let heard = connection.came(rest)?;
        rest = rest.get(heard.count..).unwrap_or(&[]);
        if heard.token.is_some() {
            told = told.saturating_add(1);
        }
    }
    let word = taken_word(connection.ended()?);
    writeln!(text, "{told} told, {word}")?;
    Ok(())
}
