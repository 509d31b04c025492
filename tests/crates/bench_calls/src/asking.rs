//! The walks in which a client takes the packets.
ghost use Rattle.std.specs.Prelude.{◌≡◌};
ghost use Rattle.tds_packet.specs.declared.kind.Kind.TheVariants.{Answer};

use crate::counted::Counted;
use crate::fault::SpeedFault;
use crate::walks::{Walk, sum_rows};
use std::alloc::Global;
use tds_client::{Client, Sent, Taken};
use tds_packet::{PacketRef, PacketSize};
use tds_request::{BatchText, Request};
use tds_token::{Columns, Token};

/// A client that takes what comes, and asks again where it is idle.
#[derive(Drop)]
struct Asker {
    client: Client,
    request: Request,
    out: Vec<u8>,
}

impl Asker {
    fn new(alloc: Global, size: PacketSize) -> Result<Asker, SpeedFault> {
        let mut units = Vec::new(alloc);
        for byte in b"select a from b" {
            units.push(u16::from(*byte))?;
        }
        let Some(text) = BatchText::new(units) else {
            return Err(SpeedFault::Refused);
        };
        let mut asker = Asker {
            client: Client::new(alloc, size),
            request: Request::Batch(text),
            out: Vec::new(alloc),
        };
        asker.ask()?;
        Ok(asker)
    }

    /// Sends the request, which is one packet.
    fn ask(&mut self) -> Result<(), SpeedFault> {
        self.out.clear();
        let is_started = self.client.start(&self.request).is_ok();
        match self.client.send(&mut self.out) {
            Ok(Sent::Last) if is_started => Ok(()),
            _ => Err(SpeedFault::Refused),
        }
    }
}

/// A client hears each packet. Its answers are summed.
#[derive(Drop)]
pub struct Hear {
    asker: Asker,
}

impl Hear {
    pub fn new(alloc: Global, size: PacketSize) -> Result<Hear, SpeedFault> {
        Ok(Hear {
            asker: Asker::new(alloc, size)?,
        })
    }
}

impl Walk for Hear {
    fn packet(&mut self, packet: PacketRef<'_>, counted: &mut Counted) -> Result<(), SpeedFault> {
        match self.asker.client.hear(packet)? {
            Taken::Finished => {
                counted.add(3);
                self.asker.ask()
            }
            _ => {
                counted.add(1);
                Ok(())
            }
        }
    }
}

/// A client hears each packet, and the values of its rows, which are read in runs, are summed.
#[derive(Drop)]
pub struct Values {
    asker: Asker,
    columns: Columns,
}

impl Values {
    pub fn new(alloc: Global, size: PacketSize) -> Result<Values, SpeedFault> {
        Ok(Values {
            asker: Asker::new(alloc, size)?,
            columns: Columns::none(),
        })
    }
}

impl Walk for Values {
    fn packet(&mut self, packet: PacketRef<'_>, counted: &mut Counted) -> Result<(), SpeedFault> {
        let data = packet.data;
        let taken = self.asker.client.hear(packet)?;
        self.columns = sum_rows(data, self.columns, counted)?;
        if matches!(&taken, Taken::Finished) {
            self.columns = Columns::none();
            self.asker.ask()?;
        }
        Ok(())
    }
}

/// A client takes each packet and tells its tokens, in memory of their own; the values of the rows
/// are summed.
#[derive(Drop)]
pub struct Take {
    asker: Asker,
    told: Vec<Token>,
}

impl Take {
    pub fn new(alloc: Global, size: PacketSize) -> Result<Take, SpeedFault> {
        Ok(Take {
            asker: Asker::new(alloc, size)?,
            told: Vec::new(alloc),
        })
    }
}

impl Walk for Take {
    fn packet(&mut self, packet: PacketRef<'_>, counted: &mut Counted) -> Result<(), SpeedFault> {
        let taken = self.asker.client.take(packet, &mut self.told)?;
        sum_told(self.told.as_slice(), counted);
        self.told.clear();
        match taken {
            Taken::Finished => self.asker.ask(),
            Taken::NoMemory => Err(SpeedFault::Memory),
            _ => Ok(()),
        }
    }
}

/// Sums the values of the rows that were told.
fn sum_told(told: &[Token], counted: &mut Counted) {
    for token in told {
        counted.add_token();
        if let Token::Row(row) = token {
            counted.add_row();
            for value in row.as_slice() {
                counted.add(u64::from(value.cast_unsigned()));
            }
        }
    }
}
