//! A table of connections that callers share, in front of any server: who holds each one, and what becomes of it.

use crate::streams::{each_room, Nobody, AT_ONCE};
use crate::{raw, Cancelled, Client, Fault, MessageKind, Taken, Told, Walk, Walked};
use std::collections::HashMap;
use std::mem::take;
use std::ops::{Deref, DerefMut};

/// Where a connection is that nobody holds any more.
#[derive(Clone, Copy, PartialEq, Eq, Debug)]
pub enum Rest {
    /// It may be lent again.
    Free,
    /// It is free once its acknowledgement has come (`Service::drained`).
    Draining,
    /// It is in the table no longer: close its socket.
    Closed,
}

/// A lease, and the number of its connection. Where nobody had that before it is to be opened and logged in.
#[derive(Clone, Copy, PartialEq, Eq, Debug)]
pub struct Lent {
    pub lease: u64,
    pub number: u64,
    pub had: bool,
}

/// A request that was asked: its connection's number, and its own there: 1, 2, ..
#[derive(Clone, Copy, PartialEq, Eq, Debug)]
pub struct Asked {
    pub number: u64,
    pub request: u64,
}

/// Whose it is what came: the lease that holds the connection, and its newest request. Nobody is told of a cancelled one.
#[derive(Clone, Copy, PartialEq, Eq, Debug)]
pub struct Whose {
    pub lease: Option<u64>,
    pub request: u64,
    pub is_told: bool,
}

/// A table of connections. It has no lock and no socket. Calls answer `Fault::NoSuch`, `AllInUse` and `NotNow` besides the
/// client's own faults.
pub struct Service {
    value: raw::Service,
    seats: Vec<raw::Seat>,
    /// Of a connection, by its number, the message that goes out, and what waits of one.
    messages: HashMap<u64, Message>,
    /// Of a connection, by its number.
    walks: HashMap<u64, Walk>,
}

#[derive(Default)]
struct Message {
    whole: Vec<u8>,
    kept: Vec<u8>,
    waiting: usize,
}

/// The client of a connection that stands in a table, which is lent meanwhile.
pub struct Seated<'a> {
    service: &'a mut Service,
    index: usize,
    client: Client,
}

impl Deref for Seated<'_> {
    type Target = Client;

    fn deref(&self) -> &Client {
        &self.client
    }
}

impl DerefMut for Seated<'_> {
    fn deref_mut(&mut self) -> &mut Client {
        &mut self.client
    }
}

impl Drop for Seated<'_> {
    fn drop(&mut self) {
        let seat = &mut self.service.seats[self.index];
        let (whole, kept) = (take(&mut self.client.message), take(&mut self.client.kept));
        seat.client = self.client.raw;
        self.service.messages.insert(seat.number, Message { whole, kept, waiting: self.client.waiting });
        if let Some(walk) = self.client.walk.take() {
            self.service.walks.insert(seat.number, walk);
        }
    }
}

impl Service {
    /// A table of at most so many connections, whose packets have 512 to 32,767 bytes.
    pub fn new(most: usize, size: u16) -> Result<Service, Fault> {
        // A size that no client can have is refused.
        Client::new(size)?;
        let value = raw::Service { size, ..raw::Service::default() };
        Ok(Service { value, seats: vec![raw::Seat::default(); most], messages: HashMap::new(), walks: HashMap::new() })
    }

    /// How many connections there are.
    pub fn count(&self) -> usize {
        self.value.count
    }

    /// Lends a free connection that is idle, and marks it for a full reset; else a new one, which is to be opened and logged in.
    /// `Fault::AllInUse`: wait until one is free.
    pub fn lease(&mut self) -> Result<Lent, Fault> {
        let mut it = raw::Lent::default();
        // SAFETY: pointer and length are those of one vector, of which the table's seats are the first ones.
        lent(unsafe { raw::tds_service_lease(&mut self.value, self.seats.as_mut_ptr(), self.seats.len(), &mut it) }, it)
    }

    /// Begins a request of a lease. Its body comes by `put`, and `finish` ends it.
    pub fn ask(&mut self, lease: u64, kind: MessageKind) -> Result<Asked, Fault> {
        let (mut kept, mut waiting, mut it) = (vec![0; self.find(lease)?.1 - 8], 0, raw::Asked::default());
        // SAFETY: as in `lease`, and of one vector more.
        let answer = unsafe {
            raw::tds_service_ask(&self.value, self.seats.as_mut_ptr(), self.seats.len(), lease, kind as u8, kept.as_mut_ptr(), kept.len(), &mut waiting, &mut it)
        };
        if answer != 0 {
            return Err(fault(answer));
        }
        self.messages.insert(it.number, Message { whole: Vec::new(), kept, waiting });
        Ok(Asked { number: it.number, request: it.request })
    }

    /// The number of a lease's connection, and the size of its packets.
    fn find(&self, lease: u64) -> Result<(u64, usize), Fault> {
        let mut index = 0;
        // SAFETY: as in `lease`.
        match unsafe { raw::tds_service_find(&self.value, self.seats.as_ptr(), self.seats.len(), lease, &mut index) } {
            0 => Ok((self.seats[index].number, usize::from(self.seats[index].client.size))),
            answer => Err(fault(answer)),
        }
    }

    /// Puts bytes of the request's body, and appends the packets that are full.
    pub fn put(&mut self, lease: u64, mut bytes: &[u8], out: &mut Vec<u8>) -> Result<(), Fault> {
        let (number, room) = self.find(lease)?;
        let (mut packet, waits) = (vec![0; room], self.messages.entry(number).or_default());
        loop {
            let (kept, kept_room, mut taken, mut count) = (waits.kept.as_mut_ptr(), waits.kept.len(), 0, 0);
            // SAFETY: each pointer and length is that of one vector or slice, and no two of them overlap.
            let answer = unsafe {
                raw::tds_service_put(&self.value, self.seats.as_mut_ptr(), self.seats.len(), lease, kept, kept_room, &mut waits.waiting, bytes.as_ptr(), bytes.len(), &mut taken, packet.as_mut_ptr(), packet.len(), &mut count)
            };
            match answer {
                0 => return Ok(()),
                1 => out.extend_from_slice(&packet[..count]),
                number => return Err(fault(number)),
            }
            bytes = &bytes[taken..];
        }
    }

    /// Ends the request, and appends its last packet.
    pub fn finish(&mut self, lease: u64, out: &mut Vec<u8>) -> Result<(), Fault> {
        let (number, room) = self.find(lease)?;
        let (mut packet, mut count, waits) = (vec![0; room], 0, self.messages.entry(number).or_default());
        // SAFETY: each pointer and length is that of one vector, and no two of them overlap.
        let answer = unsafe {
            raw::tds_service_finish(&self.value, self.seats.as_mut_ptr(), self.seats.len(), lease, waits.kept.as_ptr(), waits.waiting, packet.as_mut_ptr(), packet.len(), &mut count)
        };
        if answer != 0 {
            return Err(fault(answer));
        }
        out.extend_from_slice(&packet[..count]);
        Ok(())
    }

    /// Asks a batch, whole: which request it is; its packets are appended.
    pub fn ask_batch(&mut self, lease: u64, text: &str, out: &mut Vec<u8>) -> Result<Asked, Fault> {
        let body: Vec<u8> = text.encode_utf16().flat_map(u16::to_le_bytes).collect();
        let asked = self.ask(lease, MessageKind::Batch)?;
        self.put(lease, &body, out)?;
        self.finish(lease, out)?;
        Ok(asked)
    }

    /// Cancels what is underway. After `Asked`, send what was appended; `message_ended` hears the acknowledgement.
    pub fn cancel(&mut self, lease: u64, out: &mut Vec<u8>) -> Result<Cancelled, Fault> {
        let (mut packets, mut count) = ([0; 16], 0);
        // SAFETY: as in `lease`, and of one array.
        let answer = unsafe {
            raw::tds_service_cancel(&self.value, self.seats.as_mut_ptr(), self.seats.len(), lease, packets.as_mut_ptr(), packets.len(), &mut count)
        };
        out.extend_from_slice(&packets[..count]);
        match answer {
            5 => Ok(Cancelled::Nothing),
            6 => Ok(Cancelled::Already),
            7 => Ok(Cancelled::Unsent),
            8 => Ok(Cancelled::Asked),
            number => Err(fault(number)),
        }
    }

    /// Hears one packet on the connection of this number, whoever holds it, as `Client::hear`: the lease that holds it and its
    /// request, which are told what is appended. A connection that drained is free behind `Acknowledged`.
    pub fn hear(&mut self, number: u64, packet: &[u8], told: &mut Vec<Walked>) -> Result<(Taken, Whose), Fault> {
        self.hears(number, packet, told)
    }

    /// The same, where nobody wants the tokens.
    pub fn follow(&mut self, number: u64, packet: &[u8]) -> Result<(Taken, Whose), Fault> {
        self.hears(number, packet, &mut Nobody)
    }

    fn hears(&mut self, number: u64, packet: &[u8], told: &mut impl Extend<Walked>) -> Result<(Taken, Whose), Fault> {
        let (head, data) = packet.split_at(if packet.len() < 8 { return Err(Fault::NoPacket) } else { 8 });
        self.at(number)?;
        let (mut is_told, ends, mut whose) = (false, head[1] & 1, raw::Whose::default());
        let (value, seats, most, walk) = (&self.value, self.seats.as_mut_ptr(), self.seats.len(), self.walks.entry(number).or_default());
        let taken = each_room(data, told, |data, found, taken, count| {
            // SAFETY: as in `lease`, and of one slice and one array more; walk and memory belong together.
            let answer = unsafe {
                raw::tds_service_hear(value, seats, most, number, &mut walk.value, &mut walk.memory, data.as_ptr(), data.len(), ends, taken, found.as_mut_ptr(), AT_ONCE, count, &mut whose)
            };
            is_told |= *count > 0;
            answer
        })?;
        Ok((taken, whose_of(whose, is_told)))
    }

    /// The connection of this number, which is new, is logged in, and the login agreed on packets of this size; `walk` is the one
    /// that it hears by, where the login acknowledged what a `Walk` has to know. `Fault::NotNow`: something was asked on it.
    pub fn logged_in(&mut self, number: u64, size: u16, walk: Option<Walk>) -> Result<(), Fault> {
        let index = self.at(number)?;
        let seat = &mut self.seats[index];
        if seat.asked != 0 || seat.client.stage != 0 || seat.client.mark != 0 {
            return Err(Fault::NotNow);
        }
        seat.client = Client::new(size)?.raw;
        self.walks.extend(walk.map(|it| (number, it)));
        Ok(())
    }

    /// Hears a token that a walk of your own has found on the connection of this number, in place of `hear`: whose it is, and
    /// whether he is told.
    pub fn came(&mut self, number: u64, token: &Walked) -> Result<Whose, Fault> {
        let (value, mut whose) = (of_table(token), raw::Whose::default());
        // SAFETY: as in `lease`.
        match unsafe { raw::tds_service_came(&self.value, self.seats.as_mut_ptr(), self.seats.len(), number, &value, &mut whose) } {
            10 => Ok(whose_of(whose, true)),
            11 => Ok(whose_of(whose, false)),
            answer => Err(fault(answer)),
        }
    }

    /// Behind `came` hears that a message has ended there, with the packet whose status has bit 1; `is_cut` where the walk isn't between two
    /// tokens then. `Finished`: the request has its whole answer. `Acknowledged`: its cancel is acknowledged, and a connection
    /// that drained is free. `More`: the acknowledgement is still to come.
    pub fn message_ended(&mut self, number: u64, is_cut: bool) -> Result<(Taken, Whose), Fault> {
        let mut whose = raw::Whose::default();
        // SAFETY: as in `lease`.
        let answer = unsafe { raw::tds_service_message_ended(&self.value, self.seats.as_mut_ptr(), self.seats.len(), number, is_cut.into(), &mut whose) };
        let taken = match answer {
            1 => Taken::More,
            3 => Taken::Finished,
            4 => Taken::Acknowledged,
            answer => return Err(fault(answer)),
        };
        Ok((taken, whose_of(whose, taken == Taken::Finished)))
    }

    /// The client of a lease's connection, for what the calls by lease don't do: to log in, say. A request that is asked by it
    /// isn't counted in `Whose::request`.
    pub fn client(&mut self, lease: u64) -> Result<Seated<'_>, Fault> {
        let mut index = 0;
        // SAFETY: as in `lease`.
        let answer = unsafe { raw::tds_service_find(&self.value, self.seats.as_ptr(), self.seats.len(), lease, &mut index) };
        self.seated(answer, index)
    }

    /// The client of the connection of this number, whoever holds it: for what comes on it.
    pub fn connection(&mut self, number: u64) -> Result<Seated<'_>, Fault> {
        let index = self.at(number)?;
        self.seated(0, index)
    }

    fn at(&self, number: u64) -> Result<usize, Fault> {
        let mut index = 0;
        // SAFETY: as in `lease`.
        match unsafe { raw::tds_service_at(&self.value, self.seats.as_ptr(), self.seats.len(), number, &mut index) } {
            0 => Ok(index),
            answer => Err(fault(answer)),
        }
    }

    fn seated(&mut self, answer: u8, index: usize) -> Result<Seated<'_>, Fault> {
        if answer != 0 {
            return Err(fault(answer));
        }
        let seat = &self.seats[index];
        let Message { whole, kept, waiting } = self.messages.remove(&seat.number).unwrap_or_default();
        let client = Client { raw: seat.client, message: whole, kept, waiting, walk: self.walks.remove(&seat.number) };
        Ok(Seated { service: self, index, client })
    }

    /// The number of the lease, or of the ticket, that holds the connection of this number.
    pub fn holder(&self, number: u64) -> Result<Option<u64>, Fault> {
        let seat = &self.seats[self.at(number)?];
        Ok((1..=3).contains(&seat.place).then_some(seat.holder))
    }

    /// Ends a lease: its connection's number, and where that is. What is underway is cancelled, and what is to be sent for that
    /// is appended.
    pub fn give_back(&mut self, lease: u64, out: &mut Vec<u8>) -> Result<(u64, Rest), Fault> {
        let (mut packets, mut count, mut number) = ([0; 16], 0, 0);
        // SAFETY: as in `lease`, and of one array.
        let answer = unsafe {
            raw::tds_service_give_back(&mut self.value, self.seats.as_mut_ptr(), self.seats.len(), lease, packets.as_mut_ptr(), packets.len(), &mut count, &mut number)
        };
        out.extend_from_slice(&packets[..count]);
        self.ended(answer, number)
    }

    fn ended(&mut self, answer: u8, number: u64) -> Result<(u64, Rest), Fault> {
        let rest = rest(answer)?;
        self.messages.remove(&number);
        if rest == Rest::Closed {
            self.walks.remove(&number);
        }
        Ok((number, rest))
    }

    /// For a connection that drains, each time that its client has taken something: free once the client is idle.
    /// `Fault::NotNow` where it doesn't drain.
    pub fn drained(&mut self, number: u64) -> Result<Rest, Fault> {
        // SAFETY: as in `lease`.
        rest(unsafe { raw::tds_service_drained(&mut self.value, self.seats.as_mut_ptr(), self.seats.len(), number) })
    }

    /// The connection of this number is lost: it is in the table no longer, and its lease unknown.
    pub fn lost(&mut self, number: u64) -> Result<(), Fault> {
        // SAFETY: as in `lease`.
        let answer = unsafe { raw::tds_service_lost(&mut self.value, self.seats.as_mut_ptr(), self.seats.len(), number) };
        if answer != 0 {
            return Err(fault(answer));
        }
        self.messages.remove(&number);
        self.walks.remove(&number);
        Ok(())
    }

    /// Keeps a connection that is idle in a transaction, and gives a ticket for it. The lease is spent.
    pub fn keep(&mut self, lease: u64) -> Result<u64, Fault> {
        let mut ticket = 0;
        // SAFETY: as in `lease`.
        match unsafe { raw::tds_service_keep(&mut self.value, self.seats.as_mut_ptr(), self.seats.len(), lease, &mut ticket) } {
            0 => Ok(ticket),
            answer => Err(fault(answer)),
        }
    }

    /// Lends a connection that was kept, and marks it for a reset that keeps its transaction. The ticket is spent.
    pub fn resume(&mut self, ticket: u64) -> Result<Lent, Fault> {
        let mut it = raw::Lent::default();
        // SAFETY: as in `lease`.
        lent(unsafe { raw::tds_service_resume(&mut self.value, self.seats.as_mut_ptr(), self.seats.len(), ticket, &mut it) }, it)
    }

    /// Gives a connection up that was kept. The ticket is spent.
    pub fn abandon(&mut self, ticket: u64) -> Result<(u64, Rest), Fault> {
        let mut number = 0;
        // SAFETY: as in `lease`.
        let answer = unsafe { raw::tds_service_abandon(&mut self.value, self.seats.as_mut_ptr(), self.seats.len(), ticket, &mut number) };
        self.ended(answer, number)
    }

    /// Lends the connection of this number, if it is free and idle, to be cleaned: ask a batch that does nothing on it, which
    /// asks for a full reset, and call `cleaned` once it is answered.
    pub fn clean(&mut self, number: u64) -> Result<Lent, Fault> {
        let mut it = raw::Lent::default();
        // SAFETY: as in `lease`.
        lent(unsafe { raw::tds_service_clean(&mut self.value, self.seats.as_mut_ptr(), self.seats.len(), number, &mut it) }, it)
    }

    /// Ends a lease of `clean`: free where the reset was done and no transaction is open, else closed.
    pub fn cleaned(&mut self, lease: u64) -> Result<(u64, Rest), Fault> {
        let mut number = 0;
        // SAFETY: as in `lease`.
        let answer = unsafe { raw::tds_service_cleaned(&mut self.value, self.seats.as_mut_ptr(), self.seats.len(), lease, &mut number) };
        self.ended(answer, number)
    }
}

fn whose_of(it: raw::Whose, is_told: bool) -> Whose {
    Whose { lease: Some(it.lease).filter(|lease| *lease != 0), request: it.request, is_told }
}

/// What a table looks at of a token.
fn of_table(token: &Walked) -> raw::WireToken {
    let it = raw::WireToken { kind: token.kind, ..raw::WireToken::default() };
    match token.told {
        Told::Done { status, .. } => raw::WireToken { told: 1, status, ..it },
        Told::Transaction { change, new, old } => raw::WireToken { told: 2, change, value: new, old_value: old, ..it },
        Told::Reset => raw::WireToken { told: 3, change: 18, ..it },
        Told::Unclear => raw::WireToken { told: 10, ..it },
        _ => it,
    }
}

fn lent(answer: u8, it: raw::Lent) -> Result<Lent, Fault> {
    match answer {
        0 => Ok(Lent { lease: it.lease, number: it.number, had: it.had != 0 }),
        answer => Err(fault(answer)),
    }
}

fn rest(answer: u8) -> Result<Rest, Fault> {
    match answer {
        1 => Ok(Rest::Free),
        2 => Ok(Rest::Draining),
        3 => Ok(Rest::Closed),
        answer => Err(fault(answer)),
    }
}

/// A table's own numbers, and those of a client.
fn fault(answer: u8) -> Fault {
    match answer {
        22 => Fault::UsedUp,
        34 => Fault::NoSuch,
        35 => Fault::AllInUse,
        36 => Fault::NotNow,
        answer => Fault::of(answer),
    }
}
