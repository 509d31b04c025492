//! What both ends are to answer, by the rules of the wire alone. Nothing of the product is called
//! here.

use super::layout::{Found, token, wrong_request};
use std::alloc::AllocError;

/// What came of a packet: what the end did, or the number of its fault and of the one that it
/// carries.
#[derive(Clone, Copy, PartialEq, Eq)]
pub enum Came {
    More,
    Finished,
    Acknowledged,
    Request,
    Dropped,
    Fault(u8, u8),
}

/// How a message that comes to a client stands.
#[derive(Clone, Copy, PartialEq, Eq)]
enum Final {
    Awaited,
    Answered,
    Acknowledged,
}

#[derive(Clone, Copy, PartialEq, Eq)]
pub enum Waits {
    Idle,
    Reading,
    Cancelling,
}

/// A client: what it waits for, the descriptor that it heard last, whether a full reset was asked
/// for, how many columns are known, and how the message stands.
#[derive(Clone, Copy)]
pub struct ClientEnd {
    pub waits: Waits,
    pub descriptor: u64,
    pub is_marked: bool,
    columns: usize,
    done: Final,
}

impl ClientEnd {
    pub fn new(waits: Waits, descriptor: u64, is_marked: bool) -> ClientEnd {
        ClientEnd {
            waits,
            descriptor,
            is_marked,
            columns: 0,
            done: Final::Awaited,
        }
    }

    /// Takes a packet. The bytes of the tokens that are told are appended, unless there is a fault.
    pub fn take(
        &mut self,
        ends: bool,
        data: &[u8],
        told: &mut Vec<u8>,
    ) -> Result<Came, AllocError> {
        if self.waits == Waits::Idle {
            return Ok(Came::Fault(1, 0));
        }
        let before = told.len();
        let mut rest = data;
        for _ in 0..data.len() {
            if rest.is_empty() {
                break;
            }
            let (found, behind) = match token(self.columns, rest) {
                Ok(read) => read,
                Err(number) => {
                    told.truncate(before);
                    return Ok(Came::Fault(8, number));
                }
            };
            let number = self.hear(found);
            if number != 0 {
                told.truncate(before);
                return Ok(Came::Fault(number, 0));
            }
            let is_told = self.waits == Waits::Reading && !matches!(found, Found::Env(_, _));
            let length = rest.len().saturating_sub(behind.len());
            if is_told && length <= rest.len() {
                told.extend_from_slice(&rest[..length])?;
            }
            rest = behind;
        }
        let came = self.end(ends);
        if let Came::Fault(_, _) = came {
            told.truncate(before);
        }
        Ok(came)
    }

    /// Hears a token: the number of the fault, or 0.
    fn hear(&mut self, found: Found) -> u8 {
        if self.done != Final::Awaited {
            return 7;
        }
        match found {
            Found::Other => {}
            Found::Columns(count) => self.columns = count,
            Found::Done(status) => return self.hear_done(status),
            Found::Env(18, _) => {
                if !self.is_marked {
                    return 5;
                }
                self.is_marked = false;
                self.descriptor = 0;
            }
            Found::Env(8, begun) => {
                if self.descriptor != 0 {
                    return 4;
                }
                self.descriptor = begun;
            }
            Found::Env(_, ended) => {
                if self.descriptor != ended {
                    return 4;
                }
                self.descriptor = 0;
            }
        }
        0
    }

    fn hear_done(&mut self, status: usize) -> u8 {
        self.columns = 0;
        if status & 0x0020 != 0 {
            if self.waits == Waits::Reading {
                return 3;
            }
            self.done = Final::Acknowledged;
        } else if status & 0x0001 == 0 {
            self.done = Final::Answered;
        }
        0
    }

    /// The end of a packet, which may end the message.
    fn end(&mut self, ends: bool) -> Came {
        if !ends {
            return Came::More;
        }
        let done = self.done;
        if done == Final::Awaited {
            return Came::Fault(6, 0);
        }
        self.columns = 0;
        self.done = Final::Awaited;
        if self.waits == Waits::Reading {
            self.waits = Waits::Idle;
            return Came::Finished;
        }
        if done == Final::Answered {
            return Came::More;
        }
        self.waits = Waits::Idle;
        Came::Acknowledged
    }
}

/// What a server is at.
#[derive(Clone, Copy, PartialEq, Eq)]
pub enum Serves {
    Waiting,
    /// A message of packets of this type has begun.
    Receiving(u8),
    Answering,
}

/// A server, with the data of the message that comes.
#[derive(Drop)]
pub struct ServerEnd {
    pub serves: Serves,
    pub data: Vec<u8>,
}

/// A packet with a DONE `0020`, the only one of its message.
const ACKNOWLEDGEMENT: [u8; 21] = [
    0x04, 0x01, 0x00, 0x15, 0x00, 0x00, 0x01, 0x00, 0xFD, 0x20, 0x00, 0x00, 0x00, 0, 0, 0, 0, 0, 0,
    0, 0,
];

impl ServerEnd {
    /// Takes a packet. What it causes at once is appended.
    pub fn take(
        &mut self,
        kind: u8,
        status: u8,
        data: &[u8],
        reply: &mut Vec<u8>,
    ) -> Result<Came, AllocError> {
        if kind == 0x06 {
            if status != 0x01 || !data.is_empty() {
                return Ok(Came::Fault(4, 0));
            }
            reply.extend_from_slice(&ACKNOWLEDGEMENT)?;
            self.serves = Serves::Waiting;
            return Ok(Came::Acknowledged);
        }
        match self.serves {
            Serves::Answering => return Ok(Came::Fault(1, 0)),
            Serves::Receiving(begun) if begun != kind => return Ok(Came::Fault(2, 0)),
            Serves::Receiving(_) => {}
            Serves::Waiting if status & 0x18 == 0x18 => return Ok(Came::Fault(3, 0)),
            Serves::Waiting => self.data.clear(),
        }
        self.take_part(kind, status, data)
    }

    fn take_part(&mut self, kind: u8, status: u8, data: &[u8]) -> Result<Came, AllocError> {
        let ends = status & 0x01 != 0;
        if status & 0x02 != 0 {
            self.serves = Serves::Waiting;
            return Ok(if ends {
                Came::Dropped
            } else {
                Came::Fault(7, 0)
            });
        }
        self.data.extend_from_slice(data)?;
        if self.data.len() > 4022 {
            return Ok(Came::Fault(5, 0));
        }
        if !ends {
            self.serves = Serves::Receiving(kind);
            return Ok(Came::More);
        }
        self.serves = Serves::Answering;
        match wrong_request(kind == 0x01, self.data.as_slice()) {
            0 => Ok(Came::Request),
            number => Ok(Came::Fault(6, number)),
        }
    }
}
