//! What each vector comes to.

use super::ends::{ClientEnd, ServerEnd, Serves, Waits};
use super::fault::SweepFault;
use super::layout::{Front, front_of};
use super::product::{End, PART, client_at, server_at};
use super::trace::{Step, Trace};
use std::alloc::Global;

/// The end that a vector comes to, and what it is at.
#[derive(Clone, Copy)]
pub enum Setting {
    /// A client that reads an answer.
    Reading,
    /// One in transaction 1.
    ReadingInTransaction,
    /// One that asked for a reset.
    ReadingReset,
    /// One that cancelled.
    Cancelling,
    /// A server that waits for a request.
    Waiting,
    /// One that has the first part of a batch.
    Receiving,
}

/// The settings of the vectors, in their order.
pub const SETTINGS: [Setting; 13] = [
    Setting::Waiting,
    Setting::Reading,
    Setting::Waiting,
    Setting::Cancelling,
    Setting::Receiving,
    Setting::Reading,
    Setting::Reading,
    Setting::ReadingReset,
    Setting::ReadingInTransaction,
    Setting::Reading,
    Setting::Reading,
    Setting::Waiting,
    Setting::Reading,
];

impl Setting {
    /// The product's end.
    pub fn end(self, alloc: Global) -> Result<End, SweepFault> {
        match self {
            Setting::Reading => client_at(alloc, false, false, false),
            Setting::ReadingInTransaction => client_at(alloc, true, false, false),
            Setting::ReadingReset => client_at(alloc, false, true, false),
            Setting::Cancelling => client_at(alloc, false, false, true),
            Setting::Waiting => server_at(alloc, false),
            Setting::Receiving => server_at(alloc, true),
        }
    }

    /// What is to come of these bytes.
    pub fn expected(self, alloc: Global, bytes: &[u8]) -> Result<Trace, SweepFault> {
        match self {
            Setting::Reading => to_client(alloc, ClientEnd::new(Waits::Reading, 0, false), bytes),
            Setting::ReadingInTransaction => {
                to_client(alloc, ClientEnd::new(Waits::Reading, 1, false), bytes)
            }
            Setting::ReadingReset => {
                to_client(alloc, ClientEnd::new(Waits::Reading, 0, true), bytes)
            }
            Setting::Cancelling => {
                to_client(alloc, ClientEnd::new(Waits::Cancelling, 0, false), bytes)
            }
            Setting::Waiting => to_server(alloc, Serves::Waiting, &[], bytes),
            Setting::Receiving => to_server(alloc, Serves::Receiving(0x01), &PART[8..], bytes),
        }
    }
}

fn to_client(alloc: Global, client: ClientEnd, bytes: &[u8]) -> Result<Trace, SweepFault> {
    let mut client = client;
    let mut trace = Trace::new(alloc);
    let mut rest = bytes;
    for _ in 0..bytes.len() {
        if rest.is_empty() || trace.has_fault() {
            break;
        }
        match front_of(true, rest) {
            Front::Waiting => {
                trace.steps.push(Step::Waiting)?;
                rest = &[];
            }
            Front::Wrong(number) => trace.steps.push(Step::Wrong(number))?,
            Front::Packet {
                status,
                data,
                rest: behind,
                ..
            } => {
                let came = client.take(status & 1 != 0, data, &mut trace.bytes)?;
                trace.steps.push(Step::Came(came))?;
                rest = behind;
            }
        }
    }
    trace.descriptor = client.descriptor;
    Ok(trace)
}

fn to_server(
    alloc: Global,
    serves: Serves,
    data: &[u8],
    bytes: &[u8],
) -> Result<Trace, SweepFault> {
    let mut server = ServerEnd {
        serves,
        data: Vec::from_slice(alloc, data)?,
    };
    let mut trace = Trace::new(alloc);
    let mut rest = bytes;
    for _ in 0..bytes.len() {
        if rest.is_empty() || trace.has_fault() {
            break;
        }
        match front_of(false, rest) {
            Front::Waiting => {
                trace.steps.push(Step::Waiting)?;
                rest = &[];
            }
            Front::Wrong(number) => trace.steps.push(Step::Wrong(number))?,
            Front::Packet {
                kind,
                status,
                data,
                rest: behind,
            } => {
                let came = server.take(kind, status, data, &mut trace.bytes)?;
                trace.steps.push(Step::Came(came))?;
                rest = behind;
            }
        }
    }
    Ok(trace)
}
