//! Where each token of an answer ends, for every type of column of TDS 7.2 to 7.4 (MS-TDS 2.2.7).

use crate::{raw, Fault, Heard};
use std::error::Error;
use std::fmt;

/// Bytes of the message, counted from its first one. They may have come in pieces that are gone.
#[derive(Clone, Copy, PartialEq, Eq, Debug)]
pub struct Place {
    pub start: u64,
    pub length: u64,
}

/// What is told of a token.
#[derive(Clone, Copy, PartialEq, Eq, Debug)]
pub enum Told {
    Nothing,
    Done { status: u16, command: u16, count: u64 },
    /// ENVCHANGE 8 to 12 and 17: both descriptors.
    Transaction { change: u8, new: u64, old: u64 },
    /// ENVCHANGE 18.
    Reset,
    /// ENVCHANGE 4.
    PacketSize(u32),
    /// ENVCHANGE 1, 2, 7, 15, 20: where the values stand.
    Values { change: u8, new: Place, old: Place },
    OtherChange(u8),
    /// ERROR or INFO: behind the text the names and the line.
    Message { number: i32, state: u8, class: u8, text: Place, others: Place },
    ReturnStatus(i32),
    SessionState { number: u32, is_recoverable: bool, states: Place },
    /// One of these whose fields don't fit its length or its type.
    Unclear,
}

/// A token that has ended: where it starts in the message, its length, its first byte, and what is told of it.
#[derive(Clone, Copy, PartialEq, Eq, Debug)]
pub struct Walked {
    pub start: u64,
    pub length: u64,
    pub kind: u8,
    pub told: Told,
}

impl Walked {
    /// What a client hears of it (`Client::heard`).
    pub fn heard(&self) -> Heard {
        match self.told {
            Told::Done { status, .. } => Heard::Done(self.kind, status),
            // A begin tells the new descriptor, an end the old one.
            Told::Transaction { change: change @ (8 | 11), new, .. } => Heard::Change(change, new),
            Told::Transaction { change, old, .. } => Heard::Change(change, old),
            Told::Reset => Heard::Change(18, 0),
            _ => Heard::Other,
        }
    }
}

/// A byte that no answer has: which fault it is (`Fault::Peer` of 11 to 14), and its place in the message.
#[derive(Clone, Copy, PartialEq, Eq, Debug)]
pub struct Refused {
    pub fault: Fault,
    pub at: u64,
    pub byte: u8,
}

impl fmt::Display for Refused {
    fn fmt(&self, f: &mut fmt::Formatter<'_>) -> fmt::Result {
        write!(f, "fault {} at {}, the byte {:02x}: {}", self.fault.number(), self.at, self.byte, self.fault.words())
    }
}

impl Error for Refused {}

impl From<Refused> for Fault {
    fn from(it: Refused) -> Fault {
        it.fault
    }
}

/// What the FEATUREEXTACK of the login acknowledged: column encryption, and data classification of version 2.
#[derive(Clone, Copy, Default, PartialEq, Eq, Debug)]
pub struct Agreed {
    pub encryption: bool,
    pub ranks: bool,
}

impl Default for Walk {
    fn default() -> Walk {
        Walk::new(4096, Agreed::default())
    }
}

/// A walk over the tokens of answers, whose bytes come in pieces of any size: the data of packets of type 04.
pub struct Walk {
    pub(crate) value: raw::Wire,
    pub(crate) memory: Box<raw::WireMemory>,
}

impl Walk {
    /// A walk before the first token, with room for so many columns, 4,096 at most.
    pub fn new(most: u16, agreed: Agreed) -> Walk {
        let (mut value, mut memory) = (raw::Wire::default(), Box::<raw::WireMemory>::default());
        // SAFETY: walk and memory are written to alone.
        unsafe { raw::tds_wire_new(most, agreed.encryption.into(), agreed.ranks.into(), &mut value, &mut memory) };
        Walk { value, memory }
    }

    /// Takes bytes up to the end of one token: how many, and the token, where one has ended.
    pub fn next(&mut self, bytes: &[u8]) -> Result<(usize, Option<Walked>), Refused> {
        let (mut count, mut token) = (0, raw::WireToken::default());
        // SAFETY: the pointer and the length are those of one slice; walk and memory belong together.
        let answer = unsafe {
            raw::tds_wire_next(&mut self.value, &mut self.memory, bytes.as_ptr(), bytes.len(), &mut count, &mut token)
        };
        match answer {
            0 => Ok((count, Some(walked(&token)))),
            1 => Ok((count, None)),
            number => Err(Refused { fault: Fault::of(number), at: self.value.refused.at, byte: self.value.refused.byte }),
        }
    }

    /// The byte that it has refused, if it has.
    pub fn refused(&self) -> Option<Refused> {
        let refused = self.value.refused;
        (refused.fault != 0).then(|| Refused { fault: Fault::of(70 + refused.fault), at: refused.at, byte: refused.byte })
    }

    /// Whether a message may end here.
    pub fn is_between(&self) -> bool {
        // SAFETY: walk and memory belong together.
        unsafe { raw::tds_wire_is_between(&self.value, &self.memory) == 1 }
    }

    /// Begins anew, before the first token of the next message.
    pub fn restart(&mut self) {
        // SAFETY: walk and memory belong together.
        unsafe { raw::tds_wire_restart(&mut self.value, &mut self.memory) };
    }
}

pub(crate) fn walked(it: &raw::WireToken) -> Walked {
    let (text, others) = (place(it.text), place(it.others));
    let told = match it.told {
        1 => Told::Done { status: it.status, command: it.command, count: it.value },
        2 => Told::Transaction { change: it.change, new: it.value, old: it.old_value },
        3 => Told::Reset,
        4 => Told::PacketSize(it.size),
        5 => Told::Values { change: it.change, new: text, old: others },
        6 => Told::OtherChange(it.change),
        7 => Told::Message { number: it.number, state: it.state, class: it.severity, text, others },
        8 => Told::ReturnStatus(it.number),
        9 => Told::SessionState { number: it.size, is_recoverable: it.recoverable == 1, states: text },
        10 => Told::Unclear,
        _ => Told::Nothing,
    };
    Walked { start: it.start, length: it.length, kind: it.kind, told }
}

fn place(it: raw::WirePlace) -> Place {
    Place { start: it.start, length: it.length }
}
