//! A long answer of which the news of a reset are cut out.

use crate::answers::{COLUMNS, DONE, NEWS};
use crate::packets::{ANSWER, ENDS, RESETS, packet_in};
use crate::parking::Two;
use std::alloc::{AllocError, Global};
use std::io;
use tds_relay::Mode;

/// The most data of a packet.
const DATA: usize = 4_088;

/// Another database, which is told in front of the news (MS-TDS 2.2.7.9).
const CHANGE: [u8; 10] = [0xE3, 7, 0, 1, 1, b'b', 0, 1, b'a', 0];

/// Rows of one column, more than fit in a packet, and their DONE, behind which more comes.
const ROWS: usize = 815;

const ROW: [u8; 5] = [0xD1, 1, 0, 0, 0];

const MORE: [u8; 13] = [0xFD, 1, 0, 0, 0, 0, 0, 0, 0, 0, 0, 0, 0];

/// Of a token the server sends one byte alone, which the relay holds back, and then a packet that is full. The first
/// thing that is wrong, if one is: both go on, without the news, in packets no longer than they may be.
pub(crate) fn cut(alloc: Global) -> io::Result<Option<&'static str>> {
    let Some(mut two) = Two::new(alloc, Mode::Transactions)? else {
        return Ok(Some("a connection is opened"));
    };
    if !is_lent_on(&mut two)? {
        return Ok(Some("the second one's request asks for a reset"));
    }
    let told = tokens(alloc)?;
    let (first, others) = told.as_slice().split_at(1.min(told.len()));
    let (full, last) = others.split_at(DATA.min(others.len()));
    let mut rest = Vec::new(alloc);
    rest.extend_from_slice(last)?;
    rest.extend_from_slice(&NEWS)?;
    rest.extend_from_slice(&DONE)?;
    two.come(first, 0)?;
    // What another one says changes nothing there.
    let other = two.first;
    two.ask(other)?;
    two.come(full, 0)?;
    two.come(rest.as_slice(), ENDS)?;
    let mut data = Vec::new(alloc);
    if !put_joined(two.relay.unsent(two.second), &mut data)? {
        return Ok(Some("no packet is longer than it may be"));
    }
    let is_all = match data.as_slice().get(..told.len()) {
        Some(part) => part == told.as_slice(),
        None => false,
    };
    if !is_all || data.len() != told.len().saturating_add(DONE.len()) {
        return Ok(Some("all but the news goes on"));
    }
    Ok(None)
}

/// The second one asks, and is lent what the first one had. Whether its request asks for a reset.
fn is_lent_on(two: &mut Two) -> Result<bool, AllocError> {
    let (first, second) = (two.first, two.second);
    two.answer(first, &[], &[])?;
    two.ask(second)?;
    if !two.relay.park(first)? || !two.is_sent(RESETS) {
        return Ok(false);
    }
    two.answer(first, &NEWS, &[])?;
    Ok(two.is_sent(RESETS))
}

/// What the server answers in front of the news.
fn tokens(alloc: Global) -> Result<Vec<u8>, AllocError> {
    let mut told = Vec::new(alloc);
    told.extend_from_slice(&CHANGE)?;
    told.extend_from_slice(&COLUMNS)?;
    for _ in 0..ROWS {
        told.extend_from_slice(&ROW)?;
    }
    told.extend_from_slice(&MORE)?;
    Ok(told)
}

/// Appends the data of these packets. False where one is too long.
fn put_joined(packets: &[u8], data: &mut Vec<u8>) -> Result<bool, AllocError> {
    let mut rest = packets;
    for _ in 0..packets.len() {
        let Some(packet) = packet_in(rest) else {
            break;
        };
        if packet.kind != ANSWER || packet.data.len() > DATA {
            return Ok(false);
        }
        data.extend_from_slice(packet.data)?;
        rest = match rest.get(packet.count()..) {
            Some(others) => others,
            None => &[],
        };
    }
    Ok(true)
}
