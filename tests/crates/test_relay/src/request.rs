//! What applications ask, in a language of the bench's own: a relay doesn't look into a request's body.

use crate::packets::{
    BATCH, BULK_LOAD, PROCEDURE, RESETS, RESETS_BUT_TRANSACTION, TRANSACTION, put_packet,
};
use crate::random::Random;
use std::alloc::{AllocError, Global};
use tds_packet::Reset;

/// More than a relay keeps of a request that waits (16,384 bytes), and than may wait on a connection (a packet and 32,768).
pub(crate) const LONG: u16 = 40_000;

#[derive(Clone, Copy, Debug, PartialEq, Eq)]
pub(crate) enum Action {
    /// A return status: the setting.
    Get,
    Set(u8),
    Begin,
    Commit,
    /// So many rows, and 64 times so many.
    Rows(u8),
    Many(u8),
    /// Another database, which the server tells.
    Use(u8),
    /// `sp_reset_connection`: the request's own reset, where no transaction is open.
    Renew,
}

impl Action {
    /// Whether it leaves the session as it is.
    pub(crate) fn only_reads(self) -> bool {
        matches!(self, Action::Get | Action::Rows(_) | Action::Many(_))
    }

    fn bytes(self) -> (u8, u8) {
        match self {
            Action::Get => (1, 0),
            Action::Set(value) => (2, value),
            Action::Begin => (3, 0),
            Action::Commit => (4, 0),
            Action::Rows(count) => (5, count),
            Action::Use(name) => (6, name),
            Action::Many(count) => (7, count),
            Action::Renew => (8, 0),
        }
    }

    fn read(code: u8, value: u8) -> Option<Action> {
        match code {
            1 => Some(Action::Get),
            2 => Some(Action::Set(value)),
            3 => Some(Action::Begin),
            4 => Some(Action::Commit),
            5 => Some(Action::Rows(value)),
            6 => Some(Action::Use(value)),
            7 => Some(Action::Many(value)),
            8 => Some(Action::Renew),
            _ => None,
        }
    }
}

/// A request of a session, by its number there.
#[derive(Clone, Copy, Debug)]
pub(crate) struct Request {
    pub(crate) session: u32,
    pub(crate) number: u8,
    pub(crate) action: Action,
    /// The type of its packets.
    pub(crate) kind: u8,
    /// How many bytes stand behind that, by which it is seen that all of a body comes, in order.
    pub(crate) padding: u16,
}

impl Request {
    /// Whether a server tells the news of a reset that is done with it behind the news of the database: MS-TDS
    /// says of no order.
    pub(crate) fn tells_late(&self) -> bool {
        matches!(self.action, Action::Use(_)) && self.number % 2 == 1
    }

    fn byte_at(&self, place: u16) -> u8 {
        let number = self
            .session
            .wrapping_mul(31)
            .wrapping_add(u32::from(self.number).wrapping_mul(7))
            .wrapping_add(u32::from(place).wrapping_mul(13));
        (number % 251) as u8
    }

    /// Appends its body.
    pub(crate) fn put_body(&self, out: &mut Vec<u8>) -> Result<(), AllocError> {
        let (code, value) = self.action.bytes();
        out.extend_from_slice(&[code, value])?;
        out.extend_from_slice(&self.session.to_le_bytes())?;
        out.extend_from_slice(&[self.number, self.kind])?;
        out.extend_from_slice(&self.padding.to_le_bytes())?;
        for place in 0..self.padding {
            out.push(self.byte_at(place))?;
        }
        Ok(())
    }

    /// The request that came in packets of this type, and whose body these bytes are, all of them.
    pub(crate) fn read(kind: u8, body: &[u8]) -> Option<Request> {
        let [
            code,
            value,
            a,
            b,
            c,
            d,
            number,
            sent,
            low,
            high,
            padding @ ..,
        ] = body
        else {
            return None;
        };
        let request = Request {
            session: u32::from_le_bytes([*a, *b, *c, *d]),
            number: *number,
            action: Action::read(*code, *value)?,
            kind,
            padding: u16::from_le_bytes([*low, *high]),
        };
        if *sent == kind && request.has_padding(padding) {
            Some(request)
        } else {
            None
        }
    }

    fn has_padding(&self, padding: &[u8]) -> bool {
        if padding.len() != usize::from(self.padding) {
            return false;
        }
        let mut place = 0u16;
        for byte in padding {
            if *byte != self.byte_at(place) {
                return false;
            }
            place = place.saturating_add(1);
        }
        true
    }
}

/// The bits of a status that ask for this reset.
fn reset_bits(reset: Option<Reset>) -> u8 {
    match reset {
        None => 0,
        Some(Reset::Full) => RESETS,
        Some(Reset::KeepTransaction) => RESETS_BUT_TRANSACTION,
    }
}

/// A message's data: ALL_HEADERS with this descriptor, where its type has them (MS-TDS 2.2.5.3), and the body.
pub(crate) fn message_data(
    alloc: Global,
    kind: u8,
    descriptor: u64,
    request: &Request,
) -> Result<Vec<u8>, AllocError> {
    let mut out = Vec::new(alloc);
    if kind != BULK_LOAD {
        out.extend_from_slice(&[22, 0, 0, 0, 18, 0, 0, 0, 2, 0])?;
        out.extend_from_slice(&descriptor.to_le_bytes())?;
        out.extend_from_slice(&[1, 0, 0, 0])?;
    }
    request.put_body(&mut out)?;
    Ok(out)
}

/// Appends these data in packets of at most so many bytes of data; the last one has this status too. No more
/// than so many packets.
pub(crate) fn put_data(
    out: &mut Vec<u8>,
    kind: u8,
    reset: Option<Reset>,
    data: &[u8],
    size: usize,
    last: u8,
) -> Result<(), AllocError> {
    let mut rest = data;
    let mut status = reset_bits(reset);
    for _ in 0..data.len() {
        let (part, others) = rest.split_at(size.max(1).min(rest.len()));
        if others.is_empty() {
            status |= last;
        }
        put_packet(out, kind, status, part)?;
        status = 0;
        rest = others;
        if rest.is_empty() {
            break;
        }
    }
    Ok(())
}

// ---- What an application asks next

pub(crate) fn any_action(random: &mut Random) -> Action {
    match random.below(12) {
        0 | 1 => Action::Get,
        2 | 3 => Action::Set((random.below(255) as u8).saturating_add(1)),
        4 | 5 => Action::Begin,
        6 => Action::Commit,
        7 => Action::Use((random.below(26) as u8).saturating_add(b'a')),
        // Of packets of 512 bytes more than may wait for it.
        8 if random.once_in(4) => Action::Many(random.up_to(100) as u8),
        9 if random.once_in(3) => Action::Renew,
        _ => Action::Rows(random.below(120) as u8),
    }
}

/// Which reset a request asks for: often one behind a request that was taken back.
pub(crate) fn any_reset(took_back: bool, random: &mut Random) -> Option<Reset> {
    match random.below(if took_back { 4 } else { 20 }) {
        0 => Some(Reset::Full),
        1 => Some(Reset::KeepTransaction),
        _ => None,
    }
}

pub(crate) fn any_kind(random: &mut Random) -> u8 {
    match random.below(8) {
        0 => PROCEDURE,
        1 => BULK_LOAD,
        2 => TRANSACTION,
        _ => BATCH,
    }
}

/// The data of each packet of this request, where so many may be.
pub(crate) fn any_size(random: &mut Random, request: &Request, most: usize) -> usize {
    if request.padding == LONG {
        most
    } else {
        random.up_to(most.saturating_add(100)).min(most)
    }
}

pub(crate) fn any_padding(random: &mut Random) -> u16 {
    match random.below(40) {
        0 => LONG,
        1..=4 => random.below(1500) as u16,
        _ => random.below(30) as u16,
    }
}
