//! A relay whose connections are all held: what an exchange costs on the last one, and on each in turn.
use crate::fault::SpeedFault;
use std::alloc::Global;
use tds_packet::PacketSize;
use tds_relay::{Mode, Order, Relay};
use tds_wire::Features;

/// A batch of one character behind its headers (MS-TDS 2.2.5.3 and 2.2.6.7), in a packet of its own.
const REQUEST: [u8; 32] = [
    0x01, 0x01, 0, 32, 0, 0, 1, 0, 22, 0, 0, 0, 18, 0, 0, 0, 2, 0, 0, 0, 0, 0, 0, 0, 0, 0, 1, 0, 0,
    0, 0x31, 0,
];

/// An answer of one token, DONE: its status, its command and its count are 0 (MS-TDS 2.2.7.6).
const ANSWER: [u8; 21] = [
    0x04, 0x01, 0, 21, 0, 0, 1, 0, 0xFD, 0, 0, 0, 0, 0, 0, 0, 0, 0, 0, 0, 0,
];

/// The key of an application, and the number of the connection that it holds.
#[derive(Clone, Copy)]
pub struct Lent {
    key: usize,
    number: u64,
}

/// A relay of so many applications, each of which holds a connection; and these, in their order.
pub fn all_lent(
    alloc: Global,
    count: usize,
    size: PacketSize,
) -> Result<(Relay, Vec<Lent>), SpeedFault> {
    let features = Features {
        encryption: false,
        ranks: false,
    };
    let mut relay = Relay::new(alloc, Mode::Sessions, count, size, features)?;
    let mut all = Vec::new(alloc);
    for tag in 0..count {
        let key = relay.enter(tag)?;
        relay.said(key, &REQUEST)?;
        let Some(number) = to_open(relay.orders().as_slice()) else {
            return Err(SpeedFault::Refused);
        };
        relay.opening(number, count.saturating_add(tag));
        relay.opened(number)?;
        answer(&mut relay, key, number)?;
        all.push(Lent { key, number })?;
    }
    Ok((relay, all))
}

/// The connection that is to be opened.
fn to_open(orders: &[Order]) -> Option<u64> {
    for order in orders {
        if let Order::Open(number) = *order {
            return Some(number);
        }
    }
    None
}

/// So many requests with their answers, one each of these applications in turn.
pub fn relay_all(relay: &mut Relay, turn: &[Lent], times: u32) -> Result<(), SpeedFault> {
    let mut left = times;
    while left > 0 {
        for lent in turn {
            if left > 0 {
                relay.said(lent.key, &REQUEST)?;
                answer(relay, lent.key, lent.number)?;
                left -= 1;
            }
        }
        if turn.is_empty() {
            return Err(SpeedFault::Refused);
        }
    }
    Ok(())
}

/// Sends what waits on this connection, and hands on the answer.
fn answer(relay: &mut Relay, key: usize, number: u64) -> Result<(), SpeedFault> {
    let _ = relay.orders();
    let there = relay.unsent_on(number).len();
    if there != REQUEST.len() {
        return Err(SpeedFault::Refused);
    }
    let _ = relay.sent_on(number, there);
    relay.came(number, &ANSWER)?;
    let _ = relay.orders();
    let back = relay.unsent(key).len();
    if back != ANSWER.len() {
        return Err(SpeedFault::Refused);
    }
    let _ = relay.sent(key, back);
    Ok(())
}
