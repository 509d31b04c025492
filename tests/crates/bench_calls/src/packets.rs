//! The packets of bytes that lie in memory.
ghost use Rattle.std.specs.Prelude.{◌<◌, length, IfOk};
ghost use Rattle.std.specs.Iterator.{at_most};

use crate::fault::SpeedFault;
use tds_packet::{Direction, Header, PacketRef, PacketSize};

/// The packets that go in one direction, one behind the other. Behind a fault there are none.
#[derive(Drop)]
pub struct Packets<'a> {
    size: PacketSize,
    direction: Direction,
    bytes: &'a [u8],
}

impl<'a> Packets<'a> {
    pub fn new(size: PacketSize, direction: Direction, bytes: &'a [u8]) -> Packets<'a> {
        Packets {
            size,
            direction,
            bytes,
        }
    }

    /// The packet at the front, and the bytes behind it.
    #[inline(always)]
    fn front(&self) -> Result<(PacketRef<'a>, &'a [u8]), SpeedFault>
        ensures { IfOk result (λ x. length x.1.now < length self.now.bytes.now) }
    {
        let Some((first, rest)) = self.bytes.split_first_chunk::<8>() else {
            return Err(SpeedFault::Cut);
        };
        let header = Header::read(first, self.size, self.direction)?;
        let Some(length) = usize::from(header.length).checked_sub(8) else {
            return Err(SpeedFault::Cut);
        };
        match (rest.get(..length), rest.get(length..)) {
            (Some(data), Some(behind)) => Ok((PacketRef { header, data }, behind)),
            _ => Err(SpeedFault::Cut),
        }
    }
}

impl<'a> Iterator for Packets<'a> {
    type Item = Result<PacketRef<'a>, SpeedFault>;

    ghost remaining = { λ s. at_most (length s.bytes.now) };

    // Inlined, a loop over packets builds none of what this answers.
    #[inline(always)]
    fn next(&mut self) -> Option<Result<PacketRef<'a>, SpeedFault>> {
        if self.bytes.is_empty() {
            return None;
        }
        match self.front() {
            Ok((packet, behind)) => {
                self.bytes = behind;
                Some(Ok(packet))
            }
            Err(fault) => {
                self.bytes = &[];
                Some(Err(fault))
            }
        }
    }
}
