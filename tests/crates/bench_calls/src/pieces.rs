//! A walk over packets that come in pieces.

use crate::counted::Counted;
use crate::fault::SpeedFault;
use std::alloc::Global;
use tds_packet::{Direction, PacketReader, PacketSize};

/// Finds the packets of bytes that come in pieces of this length. The packets' lengths are summed.
pub fn pieces(
    alloc: Global,
    size: PacketSize,
    bytes: &[u8],
    length: usize,
) -> Result<Counted, SpeedFault> {
    let mut counted = Counted::none();
    let mut reader = PacketReader::new(alloc, size, Direction::ToClient)?;
    let mut rest = bytes;
    for _ in 0..u64::MAX {
        if rest.is_empty() {
            break;
        }
        let (piece, behind) = rest.split_at(length.min(rest.len()));
        rest = behind;
        take_piece(&mut reader, piece, &mut counted)?;
    }
    Ok(counted)
}

/// Hands a piece to the reader, and counts each packet that it makes whole.
fn take_piece(
    reader: &mut PacketReader,
    piece: &[u8],
    counted: &mut Counted,
) -> Result<(), SpeedFault> {
    let mut rest = piece;
    for _ in 0..u64::MAX {
        if rest.is_empty() {
            break;
        }
        let taken = reader.feed(rest)?;
        rest = rest.split_at(taken).1;
        if let Some(packet) = reader.packet() {
            counted.add_packet();
            counted.add(u64::from(packet.header.length));
            reader.done();
        }
    }
    Ok(())
}
