//! Many applications that wait, and are all served in one call.

use crate::packets::{BATCH, ENDS, put_packet};
use crate::parking::REQUEST;
use std::alloc::Global;
use std::io;
use tds_packet::PacketSize;
use tds_relay::{Mode, Order, Relay};
use tds_wire::Features;

/// How many wait: past each bound that a loop might have in place of their number.
pub(crate) const CROWDS: [usize; 3] = [17, 33, 100];

/// So many applications ask where no connection may be; then as many may be as they are. The first thing that
/// is wrong, if one is: that call orders each a connection, and none waits behind it.
pub(crate) fn crowd(alloc: Global, count: usize) -> io::Result<Option<&'static str>> {
    let Some(size) = PacketSize::new(512) else {
        return Err(io::Error::from(io::ErrorKind::InvalidInput));
    };
    let features = Features {
        encryption: false,
        ranks: false,
    };
    let mut relay = Relay::new(alloc, Mode::Sessions, count, size, features)?;
    if relay.set_most(0).is_err() {
        return Ok(Some("nobody is served without memory being wanted"));
    }
    let mut asked = Vec::new(alloc);
    put_packet(&mut asked, BATCH, ENDS, &REQUEST)?;
    for tag in 0..count {
        let key = relay.enter(tag)?;
        relay.said(key, &asked)?;
    }
    if relay.waiting() != count {
        return Ok(Some("all of them wait"));
    }
    if relay.set_most(count).is_err() {
        return Ok(Some("all are served without more memory than there is"));
    }
    if relay.waiting() != 0 {
        return Ok(Some("none waits any more"));
    }
    let orders = relay.orders();
    let opened = orders
        .iter()
        .filter(|it| matches!(it, Order::Open(_)))
        .count();
    if opened != count {
        return Ok(Some("each is ordered a connection"));
    }
    Ok(None)
}
