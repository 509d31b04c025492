//! A request of which as much is said as there is room for, and of which nothing is sent on.

use crate::group::rooms::room_behind;
use crate::packets::{BATCH, ENDS};
use crate::parking::REQUEST;
use crate::request::put_data;
use std::alloc::Global;
use std::io;
use tds_packet::PacketSize;
use tds_relay::{Mode, Order, Place, Relay};
use tds_wire::Features;

/// The packet size, and the data of a packet.
const SIZE: u16 = 4_096;

const DATA: usize = 4_088;

/// Eight full packets, of which the last one isn't sent on before more comes; and one for which there is room then.
/// All of them may wait: they are no more than a packet and 32,768 bytes.
const BEFORE: usize = 32_768;

const LAST: usize = 3_392;

const ALL: usize = 36_160;

/// The data of all of them.
const BODY: usize = 36_088;

/// The first thing that is wrong, if one is: what there is room for fits on its connection, and waits there.
pub(crate) fn fill(alloc: Global) -> io::Result<Option<&'static str>> {
    let Some(mut full) = Full::new(alloc)? else {
        return Ok(Some("a connection is opened"));
    };
    for _ in 0..BEFORE {
        if full.said >= BEFORE {
            break;
        }
        let left = BEFORE.saturating_sub(full.said);
        if !full.say(left)? {
            return Ok(Some("there is room, and no more than fits"));
        }
    }
    if full.relay.room(full.key) != LAST || !full.say(LAST)? {
        return Ok(Some("there is room for the last packet"));
    }
    if full.relay.place_of(full.key) != Some(Place::Asking(full.number)) {
        return Ok(Some("it isn't closed"));
    }
    // Its packets are as long as they were.
    if full.relay.unsent_on(full.number).len() != ALL {
        return Ok(Some("all of it waits"));
    }
    Ok(None)
}

/// A relay of one connection, and its application.
#[derive(Drop)]
struct Full {
    relay: Relay,
    key: usize,
    number: u64,
    request: Vec<u8>,
    said: usize,
}

impl Full {
    /// The first packet is said, for which the connection is opened.
    fn new(alloc: Global) -> io::Result<Option<Full>> {
        let Some(size) = PacketSize::new(SIZE) else {
            return Ok(None);
        };
        let features = Features {
            encryption: false,
            ranks: false,
        };
        let mut relay = Relay::new(alloc, Mode::Sessions, 1, size, features)?;
        let mut full = Full {
            key: relay.enter(0)?,
            relay,
            number: 0,
            request: request(alloc)?,
            said: 0,
        };
        if !full.say(usize::from(SIZE))? {
            return Ok(None);
        }
        let orders = full.relay.orders();
        let [Order::Open(number)] = orders.as_slice() else {
            return Ok(None);
        };
        full.number = *number;
        full.relay.opening(full.number, 1);
        full.relay.opened(full.number)?;
        Ok(Some(full))
    }

    /// Says so many of the next bytes, where there is room for them, or as many as there is. False where there is
    /// none, or more than fits behind what waits on its connection.
    fn say(&mut self, count: usize) -> io::Result<bool> {
        let room = self.relay.room(self.key);
        let waiting = self.relay.unsent_on(self.number).len();
        let end = self.said.saturating_add(count.min(room));
        let Some(piece) = self.request.as_slice().get(self.said..end) else {
            return Ok(false);
        };
        if piece.is_empty() || room > room_behind(waiting) {
            return Ok(false);
        }
        self.relay.said(self.key, piece)?;
        self.said = end;
        Ok(true)
    }
}

/// The packets of a request.
fn request(alloc: Global) -> io::Result<Vec<u8>> {
    let mut data = Vec::new(alloc);
    data.extend_from_slice(&REQUEST)?;
    for _ in REQUEST.len()..BODY {
        data.push(b'a')?;
    }
    let mut packets = Vec::new(alloc);
    put_data(&mut packets, BATCH, None, data.as_slice(), DATA, ENDS)?;
    Ok(packets)
}
