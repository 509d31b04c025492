//! Applications whose logins are equal, their relay, and its connections: one thing happens at a time,
//! and whatever the relay orders is done.

mod counting;
mod ending;
mod failing;
mod looking;
mod obeying;
mod opening;
pub(crate) mod rooms;
mod turning;

use self::counting::Seen;
use self::looking::number_of;
use self::opening::TAGS;
use crate::application::Application;
use crate::connection::Connection;
use crate::random::Random;
use crate::tally::{Tally, Wrong, raise};
use std::alloc::{AllocError, Global};
use tds_packet::PacketSize;
use tds_relay::{Mode, Place, Relay};
use tds_wire::Features;

/// What a group is.
#[derive(Clone, Copy)]
pub(crate) struct Kind {
    mode: Mode,
    /// How many applications are there at once, and the most connections.
    applications: usize,
    connections: usize,
    size: PacketSize,
}

impl Kind {
    pub(crate) fn by_sessions(size: PacketSize) -> Kind {
        Kind {
            mode: Mode::Sessions,
            applications: 8,
            connections: 3,
            size,
        }
    }

    pub(crate) fn by_transactions(size: PacketSize) -> Kind {
        Kind {
            mode: Mode::Transactions,
            applications: 8,
            connections: 3,
            size,
        }
    }

    /// Applications that take turns on one connection.
    pub(crate) fn of_one(size: PacketSize) -> Kind {
        Kind {
            mode: Mode::Transactions,
            applications: 4,
            connections: 1,
            size,
        }
    }
}

/// The most bytes that a relay is handed at once.
const PIECE: usize = 8_192;

#[derive(Drop)]
pub(crate) struct Group {
    alloc: Global,
    kind: Kind,
    relay: Relay,
    /// Their tags are their places here.
    applications: Vec<Option<Application>>,
    connections: Vec<Connection>,
    /// How many connections there may be now, and how many there were when that was looked at last.
    most: usize,
    count: usize,
    /// How many sessions are to come, and the next one's number.
    left: u64,
    next: u32,
    /// How many times somebody began to wait.
    tickets: u64,
    /// The tag that a connection was given last.
    tags: usize,
    /// How many requests were seen on connections, and how many messages those who have left had begun.
    asked: u64,
    messages: u64,
    seen: Seen,
    /// The connection that was closed last for a packet's header.
    refused: Option<u64>,
}

impl Group {
    pub(crate) fn new(
        alloc: Global,
        kind: Kind,
        sessions: u64,
        next: u32,
    ) -> Result<Group, AllocError> {
        let features = Features {
            encryption: false,
            ranks: false,
        };
        let mut applications = Vec::new(alloc);
        for _ in 0..kind.applications {
            applications.push(None)?;
        }
        Ok(Group {
            alloc,
            kind,
            relay: Relay::new(alloc, kind.mode, kind.connections, kind.size, features)?,
            applications,
            connections: Vec::new(alloc),
            most: kind.connections,
            count: 0,
            left: sessions,
            next,
            tickets: 0,
            tags: TAGS,
            asked: 0,
            messages: 0,
            seen: Seen::nothing(),
            refused: None,
        })
    }

    /// Whether all sessions have ended.
    pub(crate) fn is_over(&self) -> bool {
        if self.left > 0 {
            return false;
        }
        for application in self.applications.iter() {
            if application.is_some() {
                return false;
            }
        }
        true
    }

    /// Something happens.
    pub(crate) fn step(
        &mut self,
        random: &mut Random,
        tally: &mut Tally,
    ) -> Result<(), AllocError> {
        let place = random.below(self.kind.applications);
        let index = random.below(self.connections.len());
        match random.below(24) {
            0..=2 => self.act(place, random, tally),
            3..=6 => self.say(place, random, tally),
            7..=9 => self.hear(place, piece(random), tally),
            10..=13 => self.work(index, piece(random), random, tally),
            14..=17 => self.deliver(index, piece(random), tally),
            18 => self.open(index, random, tally),
            19 if random.once_in(20) => self.trouble(place, index, random, tally),
            19 => {
                self.rename(index);
                Ok(())
            }
            20..=22 => self.part(place, tally),
            23 if random.once_in(16) => self.manage(random, tally),
            _ => Ok(()),
        }
    }

    fn application(&mut self, place: usize) -> Option<&mut Application> {
        match self.applications.get_mut(place) {
            Some(Some(application)) => Some(application),
            _ => None,
        }
    }

    /// The relay, and the application at this place.
    fn relay_and(&mut self, place: usize) -> Option<(&mut Relay, &mut Application)> {
        match self.applications.get_mut(place) {
            Some(Some(application)) => Some((&mut self.relay, application)),
            _ => None,
        }
    }

    // ---- Applications

    /// One comes, or does the next thing, or leaves since it has done all.
    fn act(
        &mut self,
        place: usize,
        random: &mut Random,
        tally: &mut Tally,
    ) -> Result<(), AllocError> {
        let alloc = self.alloc;
        let Some(application) = self.application(place) else {
            return self.enter(place, random, tally);
        };
        if application.is_done() {
            return self.leave(place, tally);
        }
        application.act(alloc, random, tally)
    }

    fn enter(
        &mut self,
        place: usize,
        random: &mut Random,
        tally: &mut Tally,
    ) -> Result<(), AllocError> {
        if self.left == 0 {
            return Ok(());
        }
        self.left -= 1;
        let key = self.relay.enter(place)?;
        let most = random.up_to(6) as u8;
        let application = Application::new(self.alloc, key, self.next, most, self.most_data());
        self.next = self.next.wrapping_add(1);
        if let Some(free) = self.applications.get_mut(place) {
            *free = Some(application);
        }
        raise(&mut tally.sessions);
        Ok(())
    }

    /// It ends.
    fn leave(&mut self, place: usize, tally: &mut Tally) -> Result<(), AllocError> {
        let Some(key) = self.take_out(place) else {
            return Ok(());
        };
        self.relay.left(key)?;
        self.settle(Some(key), tally)
    }

    fn take_out(&mut self, place: usize) -> Option<usize> {
        let gone = self.applications.get_mut(place)?.take()?;
        self.messages = self.messages.saturating_add(gone.messages);
        Some(gone.key)
    }

    /// Some of what it has to say comes to the relay: no more than that has room for. But where a long
    /// request has no connection, all of it may come at once, which the relay has to refuse; and so may more
    /// attentions than acknowledgements may wait.
    fn say(
        &mut self,
        place: usize,
        random: &mut Random,
        tally: &mut Tally,
    ) -> Result<(), AllocError> {
        let Some((relay, application)) = self.relay_and(place) else {
            return Ok(());
        };
        let key = application.key;
        let is_unheld = match relay.place_of(key) {
            Some(Place::Waiting | Place::Quiet) => true,
            _ => false,
        };
        let all = application.unsaid();
        let is_too_long = is_unheld && application.is_long && all > 40_000;
        let count = if is_too_long || (application.floods() && random.once_in(2)) {
            application.is_doomed = true;
            all
        } else {
            piece(random).min(relay.room(key))
        };
        if !application.say(relay, count)? {
            return Ok(());
        }
        let may_part = application.has_taken_back() && random.below(4) > 0;
        self.settle(Some(key), tally)?;
        // The server may still have to acknowledge that.
        if may_part {
            self.part(place, tally)
        } else {
            Ok(())
        }
    }

    /// It reads some of what waits for it, once it was told that there is something.
    fn hear(&mut self, place: usize, most: usize, tally: &mut Tally) -> Result<(), AllocError> {
        let Some((relay, application)) = self.relay_and(place) else {
            return Ok(());
        };
        if !application.is_told {
            return Ok(());
        }
        let key = application.key;
        let unsent = relay.unsent(key);
        let (part, others) = unsent.split_at(most.min(unsent.len()));
        application.is_told = !others.is_empty();
        application.waited = others.len();
        let count = part.len();
        application.hear(part, tally)?;
        let told = relay.sent(key, count);
        if relay.unsent(key).len() != application.waited {
            tally.note(Wrong::Dropped);
        }
        let number = number_of(relay.place_of(key));
        self.look_at_reader(number, told, tally);
        Ok(())
    }

    // ---- Connections

    /// Some of what the relay sends comes to a connection's server, which does something.
    fn work(
        &mut self,
        index: usize,
        most: usize,
        random: &mut Random,
        tally: &mut Tally,
    ) -> Result<(), AllocError> {
        let Group {
            relay,
            connections,
            ..
        } = self;
        let Some(connection) = connections.get_mut(index) else {
            return Ok(());
        };
        let (count, told) = connection.get(relay, most, tally)?;
        let number = connection.number;
        connection.work(random, tally)?;
        self.look_at_asker(number, count, told, tally);
        Ok(())
    }

    /// Some of what its server has sent comes to the relay.
    fn deliver(&mut self, index: usize, most: usize, tally: &mut Tally) -> Result<(), AllocError> {
        let Group {
            relay,
            connections,
            ..
        } = self;
        let Some(connection) = connections.get_mut(index) else {
            return Ok(());
        };
        let number = connection.number;
        let count = most.min(relay.room_on(number));
        let count = connection.back.first(count).len();
        if count == 0 {
            return Ok(());
        }
        connection.deliver(count)?;
        relay.came(number, connection.back.first(count))?;
        connection.back.take(count);
        self.settle(None, tally)
    }
}

/// How many bytes come at once.
fn piece(random: &mut Random) -> usize {
    match random.below(4) {
        0 => random.up_to(8),
        1 | 2 => random.up_to(700),
        _ => PIECE,
    }
}
