//! Requests that are sent in parts, and what a driver's own reader tells the client of an answer.

use crate::wire::walked;
use crate::{done, raw, Client, Fault, Taken, Walk, Walked};

/// How many tokens are heard in one call of the library.
pub(crate) const AT_ONCE: usize = 64;

/// Which message a request is.
#[derive(Clone, Copy, PartialEq, Eq, Debug)]
pub enum MessageKind {
    Batch = 1,
    Procedure = 3,
    BulkLoad = 7,
    Transaction = 14,
}

/// What a driver's reader has heard: one token.
#[derive(Clone, Copy, PartialEq, Eq, Debug)]
pub enum Heard {
    /// An ENVCHANGE of this type, 8 to 12, 17 or 18, with its descriptor.
    Change(u8, u64),
    /// A DONE (`FD`), DONEPROC (`FE`) or DONEINPROC (`FF`) with this status.
    Done(u8, u16),
    Other,
}

impl Client {
    /// Begins a message. Its body comes by `put`, and `finish` ends it.
    pub fn start_message(&mut self, kind: MessageKind) -> Result<(), Fault> {
        let mut kept = vec![0; usize::from(self.raw.size) - 8];
        let mut count = 0;
        // SAFETY: the pointer and the length are those of one vector.
        done(unsafe { raw::tds_client_start_message(&mut self.raw, kind as u8, kept.as_mut_ptr(), kept.len(), &mut count) })?;
        (self.kept, self.waiting) = (kept, count);
        Ok(())
    }

    /// Puts bytes of the message's body, and appends the packets that are full.
    pub fn put(&mut self, mut bytes: &[u8], out: &mut Vec<u8>) -> Result<(), Fault> {
        let mut packet = vec![0; usize::from(self.raw.size)];
        loop {
            let (kept, kept_room, mut taken, mut count) = (self.kept.as_mut_ptr(), self.kept.len(), 0, 0);
            // SAFETY: each pointer and length is that of one vector or slice, and no two of them overlap.
            let answer = unsafe {
                raw::tds_client_put(&mut self.raw, kept, kept_room, &mut self.waiting, bytes.as_ptr(), bytes.len(), &mut taken, packet.as_mut_ptr(), packet.len(), &mut count)
            };
            match answer {
                0 => return Ok(()),
                1 => out.extend_from_slice(&packet[..count]),
                number => return Err(Fault::of(number)),
            }
            bytes = &bytes[taken..];
        }
    }

    /// Ends the message, and appends its last packet.
    pub fn finish(&mut self, out: &mut Vec<u8>) -> Result<(), Fault> {
        let mut packet = vec![0; usize::from(self.raw.size)];
        let mut count = 0;
        // SAFETY: each pointer and length is that of one vector, and no two of them overlap.
        done(unsafe { raw::tds_client_finish(&mut self.raw, self.kept.as_ptr(), self.waiting, packet.as_mut_ptr(), packet.len(), &mut count) })?;
        out.extend_from_slice(&packet[..count]);
        Ok(())
    }

    /// Hears a token that a reader of your own has found, in place of `hear`, and says whether the caller that asked is told of it.
    pub fn heard(&mut self, heard: Heard) -> Result<bool, Fault> {
        let raw = &mut self.raw;
        // SAFETY: the client is this one's own.
        let answer = match heard {
            Heard::Change(change, descriptor) => unsafe { raw::tds_client_heard_change(raw, change, descriptor) },
            Heard::Done(kind, status) => unsafe { raw::tds_client_heard_done(raw, kind, status) },
            Heard::Other => unsafe { raw::tds_client_heard_other(raw) },
        };
        match answer {
            10 => Ok(true),
            11 => Ok(false),
            number => Err(Fault::of(number)),
        }
    }

    /// The walk that it hears by.
    pub fn walk(&mut self) -> &mut Walk {
        self.walk.get_or_insert_with(Walk::default)
    }

    /// Lets it hear by this walk, where the login acknowledged what a `Walk` has to know.
    pub fn hear_by(&mut self, walk: Walk) {
        self.walk = Some(walk);
    }

    /// Hears one packet of any server's answer, from its first byte to its last, and appends the tokens that end in it and that the
    /// caller who asked is told of, also before a fault. Where they stand is counted from their message's first byte: keep its
    /// packets' data until it ends, if you read rows or texts. Behind a cancel nothing is told.
    pub fn hear(&mut self, packet: &[u8], told: &mut Vec<Walked>) -> Result<Taken, Fault> {
        let (head, data) = packet.split_at(if packet.len() < 8 { return Err(Fault::NoPacket) } else { 8 });
        self.hear_data(data, head[1] & 1 == 1, told)
    }

    /// The same, where nobody wants the tokens: for who reads rows by a reader of his own, and wants the client's state alone.
    pub fn follow(&mut self, packet: &[u8]) -> Result<Taken, Fault> {
        let (head, data) = packet.split_at(if packet.len() < 8 { return Err(Fault::NoPacket) } else { 8 });
        let walk = self.walk.get_or_insert_with(Walk::default);
        hears(&mut self.raw, walk, data, head[1] & 1 == 1, &mut Nobody)
    }

    /// The same of a packet's data, behind its header, or of a piece of them; `ends` is bit 1 of the packet's status, with its last
    /// piece.
    pub fn hear_data(&mut self, data: &[u8], ends: bool, told: &mut Vec<Walked>) -> Result<Taken, Fault> {
        let walk = self.walk.get_or_insert_with(Walk::default);
        hears(&mut self.raw, walk, data, ends, told)
    }

    /// Hears that a message has ended.
    pub fn message_ended(&mut self) -> Result<Taken, Fault> {
        // SAFETY: the client is this one's own.
        match unsafe { raw::tds_client_message_ended(&mut self.raw) } {
            1 => Ok(Taken::More),
            3 => Ok(Taken::Finished),
            4 => Ok(Taken::Acknowledged),
            number => Err(Fault::of(number)),
        }
    }
}

/// `Walk::next`, `heard` and `message_ended` in one, for many tokens in one call.
pub(crate) fn hears(raw: &mut raw::Client, walk: &mut Walk, data: &[u8], ends: bool, told: &mut impl Extend<Walked>) -> Result<Taken, Fault> {
    each_room(data, told, |data, found, taken, count| {
        // SAFETY: each pointer and length is that of one slice or array; walk and memory belong together.
        unsafe {
            raw::tds_client_hear(raw, &mut walk.value, &mut walk.memory, data.as_ptr(), data.len(), ends.into(), taken, found.as_mut_ptr(), AT_ONCE, count)
        }
    })
}

/// Nobody wants the tokens.
pub(crate) struct Nobody;

impl Extend<Walked> for Nobody {
    fn extend<T: IntoIterator<Item = Walked>>(&mut self, _: T) {}
}

/// Hears all of these data by `call`, which has room for so many tokens: what it answers at last.
pub(crate) fn each_room(mut data: &[u8], told: &mut impl Extend<Walked>, mut call: impl FnMut(&[u8], &mut [raw::WireToken; AT_ONCE], &mut usize, &mut usize) -> u8) -> Result<Taken, Fault> {
    let mut found = [raw::WireToken::default(); AT_ONCE];
    loop {
        let (mut taken, mut count) = (0, 0);
        let answer = call(data, &mut found, &mut taken, &mut count);
        told.extend(found[..count].iter().map(walked));
        data = &data[taken..];
        match answer {
            10 => {}
            0 | 1 => return Ok(Taken::More),
            3 => return Ok(Taken::Finished),
            4 => return Ok(Taken::Acknowledged),
            number => return Err(Fault::of(number)),
        }
    }
}
