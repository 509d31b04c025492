//! Idle applications, so that what they take can be measured from outside.

use crate::packets::{ATTENTION, ENDS};
use std::alloc::Global;
use std::io;
use tds_packet::PacketSize;
use tds_relay::{Mode, Relay};
use tds_wire::Features;

/// The most connections.
const CONNECTIONS: usize = 16;

/// An attention (MS-TDS 2.2.1.7).
const CANCEL: [u8; 8] = [ATTENTION, ENDS, 0, 8, 0, 0, 1, 0];

/// A relay of so many applications that are logged in. Each has sent an attention, and was sent the
/// acknowledgement. Answers how many bytes wait for them all, which is nothing.
pub(crate) fn idle(alloc: Global, count: usize) -> io::Result<usize> {
    let Some(size) = PacketSize::new(4096) else {
        return Err(io::Error::from(io::ErrorKind::InvalidInput));
    };
    let features = Features {
        encryption: false,
        ranks: false,
    };
    let mut relay = Relay::new(alloc, Mode::Sessions, CONNECTIONS, size, features)?;
    let mut waiting = 0usize;
    for tag in 0..count {
        let key = relay.enter(tag)?;
        relay.said(key, &CANCEL)?;
        let _ = relay.orders();
        let acknowledged = relay.unsent(key).len();
        let _ = relay.sent(key, acknowledged);
        waiting = waiting.saturating_add(relay.unsent(key).len());
    }
    Ok(waiting)
}
