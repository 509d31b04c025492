//! Two applications that share one connection by transactions.

use crate::answers::{DONE, NEWS};
use crate::packets::{ANSWER, BATCH, ENDS, RESETS, put_packet};
use std::alloc::{AllocError, Global};
use std::io;
use tds_packet::PacketSize;
use tds_relay::{Mode, Order, Place, Relay};
use tds_wire::Features;

/// ALL_HEADERS with no transaction (MS-TDS 2.2.5.3), and a text.
pub(crate) const REQUEST: [u8; 24] = [
    22, 0, 0, 0, 18, 0, 0, 0, 2, 0, 0, 0, 0, 0, 0, 0, 0, 0, 1, 0, 0, 0, b'a', 0,
];

/// A transaction begins, and is committed: ENVCHANGE of types 8 and 9 (MS-TDS 2.2.7.9).
const BEGUN: [u8; 14] = [0xE3, 11, 0, 8, 8, 9, 0, 0, 0, 0, 0, 0, 0, 0];

const COMMITTED: [u8; 14] = [0xE3, 11, 0, 9, 0, 8, 9, 0, 0, 0, 0, 0, 0, 0];

/// A relay of one connection, and two applications.
#[derive(Drop)]
pub(crate) struct Two {
    alloc: Global,
    pub(crate) relay: Relay,
    pub(crate) first: usize,
    pub(crate) second: usize,
    number: u64,
}

/// Plays what two applications do there. The first thing that is wrong, if one is.
pub(crate) fn park(alloc: Global) -> io::Result<Option<&'static str>> {
    let Some(mut two) = Two::new(alloc, Mode::Transactions)? else {
        return Ok(Some("a connection is opened"));
    };
    if let Some(wrong) = two.transaction()? {
        return Ok(Some(wrong));
    }
    if let Some(wrong) = two.turns()? {
        return Ok(Some(wrong));
    }
    let Some(mut two) = Two::new(alloc, Mode::Sessions)? else {
        return Ok(Some("a connection is opened by sessions"));
    };
    two.answer(two.first, &[], &[])?;
    if two.relay.park(two.first)? {
        return Ok(Some("by sessions nobody is parked"));
    }
    Ok(None)
}

impl Two {
    /// The first application has asked, and its connection is open and was sent that.
    pub(crate) fn new(alloc: Global, mode: Mode) -> io::Result<Option<Two>> {
        let Some(size) = PacketSize::new(4096) else {
            return Ok(None);
        };
        let features = Features {
            encryption: false,
            ranks: false,
        };
        let mut relay = Relay::new(alloc, mode, 1, size, features)?;
        let first = relay.enter(0)?;
        let second = relay.enter(1)?;
        let mut two = Two {
            alloc,
            relay,
            first,
            second,
            number: 0,
        };
        two.ask(first)?;
        let orders = two.relay.orders();
        let [Order::Open(number)] = orders.as_slice() else {
            return Ok(None);
        };
        two.number = *number;
        two.relay.opening(two.number, 2);
        two.relay.opened(two.number)?;
        Ok(if two.is_sent(0) { Some(two) } else { None })
    }

    /// An application asks.
    pub(crate) fn ask(&mut self, key: usize) -> Result<(), AllocError> {
        let mut bytes = Vec::new(self.alloc);
        put_packet(&mut bytes, BATCH, ENDS, &REQUEST)?;
        self.relay.said(key, bytes.as_slice())
    }

    /// Whether one request of this status waits on the connection, besides that it is whole; it is sent.
    pub(crate) fn is_sent(&mut self, status: u8) -> bool {
        let unsent = self.relay.unsent_on(self.number);
        let is = matches!(unsent, [BATCH, is, ..] if *is == ENDS | status);
        let count = unsent.len();
        let _ = self.relay.sent_on(self.number, count);
        is
    }

    /// The server answers these tokens and DONE, behind the news of a reset or not. Whether the application is
    /// given that without the news, and all of it is sent.
    pub(crate) fn answer(
        &mut self,
        key: usize,
        news: &[u8],
        tokens: &[u8],
    ) -> Result<bool, AllocError> {
        let came = self.packet(news, tokens)?;
        let given = self.packet(&[], tokens)?;
        self.relay.came(self.number, came.as_slice())?;
        let unsent = self.relay.unsent(key);
        let is = unsent == given.as_slice();
        let count = unsent.len();
        let _ = self.relay.sent(key, count);
        Ok(is)
    }

    /// A packet with these data comes.
    pub(crate) fn come(&mut self, data: &[u8], status: u8) -> Result<(), AllocError> {
        let mut bytes = Vec::new(self.alloc);
        put_packet(&mut bytes, ANSWER, status, data)?;
        self.relay.came(self.number, bytes.as_slice())
    }

    /// An answer of these tokens and DONE.
    fn packet(&self, news: &[u8], tokens: &[u8]) -> Result<Vec<u8>, AllocError> {
        let mut data = Vec::new(self.alloc);
        data.extend_from_slice(news)?;
        data.extend_from_slice(tokens)?;
        data.extend_from_slice(&DONE)?;
        let mut bytes = Vec::new(self.alloc);
        put_packet(&mut bytes, ANSWER, ENDS, data.as_slice())?;
        Ok(bytes)
    }

    /// The first one has a transaction: while its request is out, and while that is open, it isn't parked.
    fn transaction(&mut self) -> Result<Option<&'static str>, AllocError> {
        if self.relay.park(self.first)? {
            return Ok(Some("a request that is out isn't parked"));
        }
        if !self.answer(self.first, &[], &BEGUN)? {
            return Ok(Some("the first one is answered"));
        }
        if self.relay.park(self.first)? {
            return Ok(Some("a transaction isn't parked"));
        }
        self.ask(self.first)?;
        if !self.is_sent(0) || !self.answer(self.first, &[], &COMMITTED)? {
            return Ok(Some("the first one is answered again"));
        }
        Ok(None)
    }

    /// The second one waits until the first one is parked, and its connection is clean; then the other way round.
    fn turns(&mut self) -> Result<Option<&'static str>, AllocError> {
        self.ask(self.second)?;
        if self.relay.park(self.second)?
            || self.relay.place_of(self.second) != Some(Place::Waiting)
        {
            return Ok(Some("the second one waits"));
        }
        if !self.relay.park(self.first)? || self.relay.place_of(self.first) != Some(Place::Quiet) {
            return Ok(Some("the first one is parked"));
        }
        // The relay cleans the connection, and lends it: its next request begins a session there.
        if !self.is_sent(RESETS) || self.answer(self.first, &NEWS, &[])? {
            return Ok(Some("nobody is told of the cleaning"));
        }
        if !self.is_sent(RESETS) || !self.answer(self.second, &NEWS, &[])? {
            return Ok(Some("the second one is answered"));
        }
        self.ask(self.first)?;
        if !self.relay.park(self.second)? {
            return Ok(Some("the second one is parked"));
        }
        let _ = self.is_sent(RESETS);
        let _ = self.answer(self.second, &NEWS, &[])?;
        if !self.is_sent(RESETS) || !self.answer(self.first, &NEWS, &[])? {
            return Ok(Some("the first one is answered on what it is lent next"));
        }
        Ok(None)
    }
}
