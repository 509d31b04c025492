//! Packets by themselves: what a reader is fed with, and headers.
//!
//! ```text
//! reader to_client | to_server   goes on with a new reader, for packets of at most 512 bytes
//! feed BYTES        how many are taken, or the fault's number
//! each BYTES        hands them over one by one: how many are taken with no packet lent before
//! packet            the packet that is lent: its kind, its status and its data; or none
//! done              the packet is done with
//! pass BYTES        what the reader of headers alone says of each part of them, behind how many it takes
//! size N            the packet size, where it is lawful
//! status BYTE       the reset that it asks a server for, and whether it ends a message
//! header BYTES      the fields of a header to a server, and the bytes that are written of them
//! faults PLACE      how many headers of an attention have no fault, and each fault from 1, with each
//!                   byte at a place; with each Length where the place is `length`
//! ```

use crate::case::{Case, Layer, Stop};
use crate::said::Said;
use crate::spelling::{reader, size_of};
use crate::words::Words;
use bitflags::Flags;
use std::alloc::Global;
use tds_packet::{
    Direction, Header, HeaderReader, Kind, PacketReader, PacketSize, Passed, Reset, Status,
    put_packet,
};

#[derive(Drop)]
struct Packets {
    alloc: Global,
    reader: PacketReader,
    headers: HeaderReader,
    bytes: Vec<u8>,
}

/// Plays a case.
pub fn play(alloc: Global, case: &mut Case<'_>) -> Result<(), Stop> {
    let mut packets = Packets {
        alloc,
        reader: reader(alloc, Direction::ToClient)?,
        headers: HeaderReader::new(),
        bytes: Vec::new(alloc),
    };
    case.play(alloc, &mut packets)
}

impl Layer for Packets {
    fn call(&mut self, words: &mut Words<'_>, said: &mut Said) -> Result<(), Stop> {
        match words.next() {
            "reader" => self.renew(words.next()),
            "feed" => self.feed(words, said),
            "each" => self.each(words, said),
            "packet" => self.packet(said),
            "done" => {
                self.reader.done();
                Ok(())
            }
            "pass" => self.pass(words, said),
            "size" => say_size(words, said),
            "status" => self.status(words, said),
            "header" => self.header(words, said),
            "faults" => say_faults(words.next(), said),
            _ => Err(Stop::Unread),
        }
    }
}

impl Packets {
    fn renew(&mut self, direction: &str) -> Result<(), Stop> {
        self.reader = match direction {
            "to_client" => reader(self.alloc, Direction::ToClient)?,
            "to_server" => reader(self.alloc, Direction::ToServer)?,
            _ => return Err(Stop::Unread),
        };
        Ok(())
    }

    fn feed(&mut self, words: &mut Words<'_>, said: &mut Said) -> Result<(), Stop> {
        words.bytes(&mut self.bytes)?;
        match self.reader.feed(self.bytes.as_slice()) {
            Ok(count) => said.number(count as u64)?,
            Err(fault) => said.numbered("fault", u64::from(fault.number()))?,
        }
        Ok(())
    }

    fn each(&mut self, words: &mut Words<'_>, said: &mut Said) -> Result<(), Stop> {
        words.bytes(&mut self.bytes)?;
        let mut count = 0u64;
        for byte in self.bytes.as_slice() {
            if self.reader.packet().is_none() && self.reader.feed(&[*byte]).is_ok() {
                count = count.saturating_add(1);
            }
        }
        said.number(count)?;
        Ok(())
    }

    fn packet(&self, said: &mut Said) -> Result<(), Stop> {
        let Some(packet) = self.reader.packet() else {
            said.word("none")?;
            return Ok(());
        };
        said.word(kind_word(packet.header.kind))?;
        said.byte(packet.header.status.bits())?;
        said.bytes(packet.data)?;
        Ok(())
    }

    fn pass(&mut self, words: &mut Words<'_>, said: &mut Said) -> Result<(), Stop> {
        words.bytes(&mut self.bytes)?;
        let mut rest = self.bytes.as_slice();
        for _ in 0..self.bytes.len() {
            if rest.is_empty() {
                break;
            }
            let (count, passed) = self.headers.take(rest);
            said.number(count as u64)?;
            say_passed(passed, said)?;
            rest = rest.get(count..).unwrap_or(&[]);
        }
        Ok(())
    }

    fn status(&mut self, words: &mut Words<'_>, said: &mut Said) -> Result<(), Stop> {
        words.bytes(&mut self.bytes)?;
        let [byte] = self.bytes.as_slice() else {
            return Err(Stop::Unread);
        };
        let Some(status) = Status::read(*byte, Direction::ToServer) else {
            return Err(Stop::Unread);
        };
        said.word(reset_word(status.reset()))?;
        said.word(if status.ends() { "ends" } else { "goes on" })?;
        Ok(())
    }

    fn header(&mut self, words: &mut Words<'_>, said: &mut Said) -> Result<(), Stop> {
        words.bytes(&mut self.bytes)?;
        let [a, b, c, d, e, f, g, h] = self.bytes.as_slice() else {
            return Err(Stop::Unread);
        };
        let bytes = [*a, *b, *c, *d, *e, *f, *g, *h];
        let Ok(header) = Header::read(&bytes, size_of(512)?, Direction::ToServer) else {
            return Err(Stop::Unread);
        };
        say_header(header, said)?;
        if header.length != 8 {
            return Err(Stop::Unread);
        }
        self.bytes.clear();
        put_packet(&mut self.bytes, header, &[])?;
        said.bytes(self.bytes.as_slice())?;
        Ok(())
    }
}

fn say_passed(passed: Passed, said: &mut Said) -> Result<(), Stop> {
    match passed {
        Passed::Part => said.word("part")?,
        Passed::Begins(head) => {
            said.word("begins")?;
            said.byte(head.kind)?;
            said.byte(head.status)?;
            said.number(u64::from(head.length))?;
        }
        Passed::Data { ends } => said.word(if ends { "ends" } else { "data" })?,
        Passed::Wrong => said.word("wrong")?,
    }
    Ok(())
}

fn say_header(header: Header, said: &mut Said) -> Result<(), Stop> {
    said.word(kind_word(header.kind))?;
    said.byte(header.status.bits())?;
    said.number(u64::from(header.length))?;
    said.number(u64::from(header.spid))?;
    said.number(u64::from(header.packet_id))?;
    said.number(u64::from(header.window))?;
    Ok(())
}

fn kind_word(kind: Kind) -> &'static str {
    match kind {
        Kind::Batch => "batch",
        Kind::Procedure => "procedure",
        Kind::Answer => "answer",
        Kind::Attention => "attention",
        Kind::BulkLoad => "bulk_load",
        Kind::Transaction => "transaction",
    }
}

pub fn reset_word(reset: Option<Reset>) -> &'static str {
    match reset {
        None => "none",
        Some(Reset::Full) => "full",
        Some(Reset::KeepTransaction) => "keep",
    }
}

fn say_size(words: &mut Words<'_>, said: &mut Said) -> Result<(), Stop> {
    let Ok(size) = u16::try_from(words.number()?) else {
        return Err(Stop::Unread);
    };
    match PacketSize::new(size) {
        Some(size) => said.number(u64::from(size.get()))?,
        None => said.word("none")?,
    }
    Ok(())
}

/// An attention.
const ATTENTION: [u8; 8] = [0x06, 0x01, 0x00, 0x08, 0x00, 0x00, 0x01, 0x00];

fn say_faults(place: &str, said: &mut Said) -> Result<(), Stop> {
    let size = size_of(512)?;
    let counts = match place {
        "length" => faults_of_lengths(size),
        "type" => faults_at(0, size),
        "status" => faults_at(1, size),
        _ => return Err(Stop::Unread),
    };
    for count in counts {
        said.number(u64::from(count))?;
    }
    Ok(())
}

fn faults_at(place: usize, size: PacketSize) -> [u32; 7] {
    let mut counts = [0u32; 7];
    let mut header = ATTENTION;
    for byte in 0..=255 {
        if let Some(there) = header.get_mut(place) {
            *there = byte;
        }
        count_fault(&mut counts, &header, size);
    }
    counts
}

fn faults_of_lengths(size: PacketSize) -> [u32; 7] {
    let mut counts = [0u32; 7];
    for high in 0..=255 {
        for low in 0..=255 {
            count_fault(&mut counts, &[0x06, 0x01, high, low, 0, 0, 1, 0], size);
        }
    }
    counts
}

/// Counts the fault that a header has on its way to a server, 0 for none, at this packet size.
fn count_fault(counts: &mut [u32; 7], header: &[u8; 8], size: PacketSize) {
    let number = match Header::read(header, size, Direction::ToServer) {
        Ok(_) => 0,
        Err(fault) => fault.number(),
    };
    if let Some(count) = counts.get_mut(usize::from(number)) {
        *count = count.wrapping_add(1);
    }
}
