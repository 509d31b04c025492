//! A request of 10 MB that goes out in parts, in the memory of a packet, and comes in whole.

use crate::refusals::streams::taken;
use crate::refusals::tried::Fault;
use std::alloc::Global;
use std::fmt::Write;
use tds_client::{Client, MessageKind};
use tds_packet::{Direction, PacketReader, PacketSize, Reset};

/// How many parts are put, and how long each is.
const PARTS: usize = 10_000;

const PART: usize = 1_000;

/// ALL_HEADERS with descriptor 0 (MS-TDS 2.2.5.3).
const HEADERS: [u8; 22] = [
    22, 0, 0, 0, 18, 0, 0, 0, 2, 0, 0, 0, 0, 0, 0, 0, 0, 0, 1, 0, 0, 0,
];

/// What has come.
#[derive(Drop)]
struct Coming {
    reader: PacketReader,
    /// The bytes of the message that came.
    bytes: usize,
    packets: usize,
    /// The most bytes that went out at once.
    most: usize,
    /// Whether all is as it was put.
    is_same: bool,
    /// Whether the last packet that came ends the message, and is the only one.
    has_ended: bool,
}

/// Appends a line for what came of it.
pub fn put(alloc: Global, text: &mut String) -> Result<(), Fault> {
    let size = PacketSize::new(4096).ok_or(Fault::Wrong)?;
    let mut client = Client::new(alloc, size);
    let mut coming = Coming {
        reader: PacketReader::new(alloc, size, Direction::ToServer)?,
        bytes: 0,
        packets: 0,
        most: 0,
        is_same: true,
        has_ended: false,
    };
    send(alloc, &mut client, &mut coming)?;
    writeln!(
        text,
        "a batch in parts: {} bytes in {} packets, at most {} bytes at once, ended {}, the same {}",
        coming.bytes, coming.packets, coming.most, coming.has_ended, coming.is_same
    )?;
    Ok(())
}

/// Sends all parts, and reads what goes out behind each.
fn send(alloc: Global, client: &mut Client, coming: &mut Coming) -> Result<(), Fault> {
    let mut out = Vec::new(alloc);
    taken(client.mark_reset(Reset::Full))?;
    taken(client.start_message(MessageKind::Batch))?;
    for part in 0..PARTS {
        taken(client.put(&part_of(part), &mut out))?;
        coming.read(out.as_slice())?;
        out.clear();
    }
    taken(client.finish(&mut out))?;
    coming.read(out.as_slice())
}

/// The bytes of a part: each part begins with another one.
fn part_of(part: usize) -> [u8; PART] {
    [(part % 251) as u8; PART]
}

/// The byte of the message at this place.
fn byte_at(place: usize) -> u8 {
    match HEADERS.get(place) {
        Some(byte) => *byte,
        None => (place.saturating_sub(22) / PART % 251) as u8,
    }
}

impl Coming {
    /// Reads what went out at once: nothing, or a packet.
    fn read(&mut self, out: &[u8]) -> Result<(), Fault> {
        if out.is_empty() {
            return Ok(());
        }
        self.most = self.most.max(out.len());
        let count = self.reader.feed(out).unwrap_or(0);
        self.is_same = self.is_same && count == out.len() && !self.has_ended;
        let Some(packet) = self.reader.packet() else {
            return Err(Fault::Wrong);
        };
        let is_marked = packet.header.status.reset() == Some(Reset::Full);
        self.is_same = self.is_same && is_marked == (self.packets == 0);
        self.has_ended = packet.header.status.ends();
        for byte in packet.data {
            self.is_same = self.is_same && *byte == byte_at(self.bytes);
            self.bytes = self.bytes.saturating_add(1);
        }
        self.packets = self.packets.saturating_add(1);
        self.reader.done();
        Ok(())
    }
}
