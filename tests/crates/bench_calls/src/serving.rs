//! The walk over requests: a server takes each, and writes its answer.
use crate::counted::Counted;
use crate::fault::SpeedFault;
use crate::packets::Packets;
use std::alloc::Global;
use tds_packet::{Direction, PacketRef, PacketSize};
use tds_server::{ScriptEngine, Server, ServerTook, Worked};

/// What is looked at of an answer.
#[derive(Clone, Copy)]
pub enum Look {
    /// Its length. The lengths are summed.
    Length,
    /// Each byte, so that another program can be seen to write the same.
    Bytes,
}

/// A server of the batch language, and where its answers are written.
#[derive(Drop)]
struct Serving {
    server: Server<ScriptEngine>,
    out: Vec<u8>,
}

impl Serving {
    /// Takes all packets of these bytes.
    fn answer_all(
        &mut self,
        size: PacketSize,
        bytes: &[u8],
        look: Look,
    ) -> Result<Counted, SpeedFault> {
        let mut counted = Counted::none();
        for packet in Packets::new(size, Direction::ToServer, bytes) {
            let packet = packet?;
            counted.add_packet();
            self.answer(packet, &mut counted)?;
            match look {
                Look::Length => counted.add(self.out.len() as u64),
                Look::Bytes => mix(self.out.as_slice(), &mut counted),
            }
        }
        Ok(counted)
    }

    /// Takes a packet, and where it ends a request, does the steps of its answer.
    fn answer(&mut self, packet: PacketRef<'_>, counted: &mut Counted) -> Result<(), SpeedFault> {
        if packet.header.kind.direction() != Direction::ToServer {
            return Err(SpeedFault::Cut);
        }
        self.out.clear();
        match self.server.take(packet, &mut self.out)? {
            ServerTook::Request => self.work(counted),
            ServerTook::NoMemory => Err(SpeedFault::Memory),
            _ => Ok(()),
        }
    }

    /// Does the steps of an answer, one packet each.
    fn work(&mut self, counted: &mut Counted) -> Result<(), SpeedFault> {
        for _ in 0..u64::MAX {
            let worked = self.server.work(&mut self.out)?;
            counted.add_token();
            if worked != Worked::Step {
                break;
            }
        }
        Ok(())
    }
}

/// A server answers the request of each packet. The packets of the answers are counted as tokens.
pub fn serve(
    alloc: Global,
    size: PacketSize,
    bytes: &[u8],
    look: Look,
) -> Result<Counted, SpeedFault> {
    let mut serving = Serving {
        server: Server::new(alloc, ScriptEngine, size),
        out: Vec::new(alloc),
    };
    serving.answer_all(size, bytes, look)
}

/// Mixes these bytes into the sum, so that it tells them and their order.
fn mix(bytes: &[u8], counted: &mut Counted) {
    for byte in bytes {
        counted.sum = counted.sum.wrapping_mul(31).wrapping_add(u64::from(*byte));
    }
}
