//! The calls of a request that goes out in parts.

use super::layers::{FRONT, size};
use super::tried::{Fault, Tried, again};
use std::alloc::Global;
use tds_client::{Client, ClientRefusal, ClientState, MessageKind};

/// With the headers, two full packets and 14 bytes.
const BODY: [u8; 1000] = [7; 1000];

/// A call of a client.
#[derive(Clone, Copy)]
pub enum StreamCall {
    Start,
    Put,
    Finish,
}

/// Makes it on a client that is new.
pub fn call(alloc: Global, call: StreamCall, tried: &mut Tried) -> Result<(), Fault> {
    let mut client = Client::new(alloc, size()?);
    let mut out = Vec::new(alloc);
    match call {
        StreamCall::Start => start(&mut client, &mut out, tried),
        StreamCall::Put => put(&mut client, &mut out, tried),
        StreamCall::Finish => finish(&mut client, &mut out, tried),
    }
}

/// Where a call is refused for anything but want of memory, that is wrong.
pub fn taken(answer: Result<(), ClientRefusal>) -> Result<(), Fault> {
    match answer {
        Ok(()) => Ok(()),
        Err(ClientRefusal::Memory) => Err(Fault::Memory),
        Err(_) => Err(Fault::Wrong),
    }
}

fn begin(client: &mut Client) -> Result<(), Fault> {
    taken(client.start_message(MessageKind::Batch))
}

fn start(client: &mut Client, out: &mut Vec<u8>, tried: &mut Tried) -> Result<(), Fault> {
    match begin(client) {
        Err(Fault::Memory) => {
            let is_idle = matches!(client.state(), ClientState::Idle);
            tried.refuse(is_idle && client.reset_mark().is_none());
            again(begin(client))?;
        }
        begun => begun?,
    }
    taken(client.finish(out))?;
    tried.get(out.as_slice())
}

/// Whether the client sends, and nothing stands behind what `out` had.
fn is_untouched(client: &Client, out: &[u8]) -> bool {
    matches!(client.state(), ClientState::Sending) && out == FRONT.as_slice()
}

fn put(client: &mut Client, out: &mut Vec<u8>, tried: &mut Tried) -> Result<(), Fault> {
    begin(client)?;
    out.extend_from_slice(&FRONT)?;
    match taken(client.put(&BODY, out)) {
        Err(Fault::Memory) => {
            tried.refuse(is_untouched(client, out.as_slice()));
            again(client.put(&BODY, out))?;
        }
        put => put?,
    }
    tried.count(out.len() as u64)?;
    taken(client.finish(out))?;
    tried.count(out.len() as u64)
}

fn finish(client: &mut Client, out: &mut Vec<u8>, tried: &mut Tried) -> Result<(), Fault> {
    begin(client)?;
    taken(client.put(&FRONT, out))?;
    out.extend_from_slice(&FRONT)?;
    match taken(client.finish(out)) {
        Err(Fault::Memory) => {
            tried.refuse(is_untouched(client, out.as_slice()));
            again(client.finish(out))?;
        }
        finished => finished?,
    }
    tried.get(out.as_slice())
}
