//! Packets, and bytes that are on their way (MS-TDS 2.2.3.1).

use std::alloc::{AllocError, Global};

/// The types of packets that are written here.
pub(crate) const BATCH: u8 = 1;

pub(crate) const PROCEDURE: u8 = 3;

pub(crate) const ANSWER: u8 = 4;

pub(crate) const ATTENTION: u8 = 6;

pub(crate) const BULK_LOAD: u8 = 7;

pub(crate) const TRANSACTION: u8 = 14;

/// The bits of a packet's status.
pub(crate) const ENDS: u8 = 1;

pub(crate) const IGNORED: u8 = 2;

pub(crate) const RESETS: u8 = 8;

pub(crate) const RESETS_BUT_TRANSACTION: u8 = 16;

#[derive(Clone, Copy, Debug)]
pub(crate) struct Packet<'a> {
    pub(crate) kind: u8,
    pub(crate) status: u8,
    pub(crate) data: &'a [u8],
}

impl Packet<'_> {
    pub(crate) fn ends(&self) -> bool {
        self.status & ENDS != 0
    }

    /// How many bytes it has with its header.
    pub(crate) fn count(&self) -> usize {
        self.data.len().saturating_add(8)
    }
}

/// The packet that stands at the front of these bytes, where it is whole.
pub(crate) fn packet_in(bytes: &[u8]) -> Option<Packet<'_>> {
    let [kind, status, high, low, _, _, _, _, ..] = bytes else {
        return None;
    };
    let count = 256 * usize::from(*high) + usize::from(*low);
    match bytes.get(8..count) {
        Some(data) => Some(Packet {
            kind: *kind,
            status: *status,
            data,
        }),
        None => None,
    }
}

/// Appends a packet.
pub(crate) fn put_packet(
    out: &mut Vec<u8>,
    kind: u8,
    status: u8,
    data: &[u8],
) -> Result<(), AllocError> {
    let length = data.len().saturating_add(8).min(65_535);
    let header = [
        kind,
        status,
        (length / 256) as u8,
        (length % 256) as u8,
        0,
        0,
        1,
        0,
    ];
    out.extend_from_slice(&header)?;
    out.extend_from_slice(data)
}

/// Bytes that are on their way, the first ones first.
#[derive(Drop)]
pub(crate) struct Stream {
    bytes: Vec<u8>,
    taken: usize,
}

impl Stream {
    pub(crate) fn new(alloc: Global) -> Stream {
        Stream {
            bytes: Vec::new(alloc),
            taken: 0,
        }
    }

    /// Where more of them are appended.
    pub(crate) fn bytes(&mut self) -> &mut Vec<u8> {
        &mut self.bytes
    }

    pub(crate) fn rest(&self) -> &[u8] {
        match self.bytes.as_slice().get(self.taken..) {
            Some(rest) => rest,
            None => &[],
        }
    }

    /// The first ones, so many at most.
    pub(crate) fn first(&self, count: usize) -> &[u8] {
        let rest = self.rest();
        match rest.get(..count) {
            Some(first) => first,
            None => rest,
        }
    }

    pub(crate) fn is_empty(&self) -> bool {
        self.rest().is_empty()
    }

    /// So many of them have come.
    pub(crate) fn take(&mut self, count: usize) {
        self.taken = self.taken.saturating_add(count);
        if self.taken >= self.bytes.len() {
            self.bytes.clear();
            self.taken = 0;
        }
    }
}
