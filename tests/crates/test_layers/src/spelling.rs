//! The bytes of tokens, and packets of bytes.

use crate::case::Stop;
use crate::said::Said;
use std::alloc::Global;
use tds_packet::{Direction, PacketReader, PacketSize};
use tds_token::{Token, put_token};

/// Says the bytes that spell tokens.
pub fn say_tokens(alloc: Global, tokens: &[Token], said: &mut Said) -> Result<(), Stop> {
    let mut bytes = Vec::new(alloc);
    for token in tokens {
        if !token.fits() {
            return Err(Stop::Unread);
        }
        put_token(&mut bytes, token)?;
    }
    said.bytes(bytes.as_slice())?;
    Ok(())
}

/// A lawful packet size.
pub fn size_of(size: u64) -> Result<PacketSize, Stop> {
    match u16::try_from(size) {
        Ok(size) => PacketSize::new(size).ok_or(Stop::Unread),
        Err(_) => Err(Stop::Unread),
    }
}

/// A reader of packets of at most 512 bytes.
pub fn reader(alloc: Global, direction: Direction) -> Result<PacketReader, Stop> {
    Ok(PacketReader::new(alloc, size_of(512)?, direction)?)
}
