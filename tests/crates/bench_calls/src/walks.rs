//! The walks over an answer. Each makes the calls that `bench/calls.c` makes over `include/tds.h`.
ghost use Rattle.std.specs.Prelude.{◌≡◌};
ghost use Rattle.tds_packet.specs.declared.kind.Kind.TheVariants.{Answer};

use crate::counted::Counted;
use crate::fault::SpeedFault;
use crate::packets::Packets;
use tds_packet::{Direction, Kind, PacketRef, PacketSize};
use tds_token::{Columns, RowRef, Rows, TokenRef, Tokens};

/// What is done with each packet of an answer.
pub trait Walk: Drop {
    /// Takes the next packet, and counts what it has.
    fn packet(&mut self, packet: PacketRef<'_>, counted: &mut Counted) -> Result<(), SpeedFault>
        requires { packet.header.kind ≡ Answer };
}

/// Walks over the packets of an answer.
// A walk is a function of its own, as in plain C: its loop has the registers to itself.
#[inline(never)]
pub fn walked<W: Walk>(mut walk: W, size: PacketSize, bytes: &[u8]) -> Result<Counted, SpeedFault> {
    let mut counted = Counted::none();
    for packet in Packets::new(size, Direction::ToClient, bytes) {
        let packet = packet?;
        let Kind::Answer = packet.header.kind else {
            return Err(SpeedFault::Cut);
        };
        counted.add_packet();
        walk.packet(packet, &mut counted)?;
    }
    Ok(counted)
}

/// Finds the packets. Their lengths are summed.
#[derive(Clone, Copy)]
pub struct Lengths;

impl Walk for Lengths {
    fn packet(&mut self, packet: PacketRef<'_>, counted: &mut Counted) -> Result<(), SpeedFault> {
        counted.add(u64::from(packet.header.length));
        Ok(())
    }
}

/// Reads the tokens of each packet. The rows that the DONEs tell are summed.
#[derive(Clone, Copy)]
pub struct EachToken {
    /// The columns that are known behind what was read.
    columns: Columns,
}

impl EachToken {
    pub fn new() -> EachToken {
        EachToken {
            columns: Columns::none(),
        }
    }
}

impl Walk for EachToken {
    fn packet(&mut self, packet: PacketRef<'_>, counted: &mut Counted) -> Result<(), SpeedFault> {
        let mut tokens = Tokens::new(packet.data, self.columns);
        'tokens: while let Some(next) = tokens.next() {
            counted.add_token();
            match next? {
                TokenRef::Row(_) => counted.add_row(),
                TokenRef::Done { rows, .. } => counted.add(rows),
                _ => {}
            }
        }
        self.columns = tokens.columns();
        Ok(())
    }
}

/// The same in runs of rows, of which the values are summed.
#[derive(Clone, Copy)]
pub struct RowRuns {
    columns: Columns,
}

impl RowRuns {
    pub fn new() -> RowRuns {
        RowRuns {
            columns: Columns::none(),
        }
    }
}

impl Walk for RowRuns {
    fn packet(&mut self, packet: PacketRef<'_>, counted: &mut Counted) -> Result<(), SpeedFault> {
        self.columns = sum_rows(packet.data, self.columns, counted)?;
        Ok(())
    }
}

/// Sums the values of a packet's rows, which are read in runs. Answers the columns that are known behind
/// them.
#[inline(always)]
pub fn sum_rows(
    data: &[u8],
    columns: Columns,
    counted: &mut Counted,
) -> Result<Columns, SpeedFault> {
    let mut tokens = Tokens::new(data, columns);
    'tokens: while let Some(next) = tokens.next() {
        counted.add_token();
        if let TokenRef::Row(first) = next? {
            counted.add_row();
            sum_values(&first, counted);
            sum_run(tokens.rows(), counted);
        }
    }
    Ok(tokens.columns())
}

/// Sums the values of a run of rows.
#[inline(always)]
fn sum_run(rows: Rows<'_>, counted: &mut Counted) {
    counted.add_rows(rows.len());
    for row in rows {
        sum_values(&row, counted);
    }
}

/// Sums a row's values.
#[inline(always)]
fn sum_values(row: &RowRef<'_>, counted: &mut Counted) {
    for value in row.values() {
        counted.add(u64::from(value.cast_unsigned()));
    }
}
