//! Applications that are parted from their connections at rest; connections that come first; how many there may be.

use super::Group;
use super::looking::number_of;
use crate::connection::Connection;
use crate::random::Random;
use crate::tally::{Tally, Wrong, raise};
use std::alloc::AllocError;
use tds_relay::{Mode, Place};

impl Group {
    /// An application is to be parted from its connection: it is where it rests and they are shared by
    /// transactions, and else nothing changes.
    pub(super) fn part(&mut self, place: usize, tally: &mut Tally) -> Result<(), AllocError> {
        let mode = self.kind.mode;
        let is_underway = self.is_underway(place);
        let Some((relay, application)) = self.relay_and(place) else {
            return Ok(());
        };
        let key = application.key;
        let before = relay.place_of(key);
        let is_idle = matches!(before, Some(Place::Quiet | Place::Holding(_)));
        // What it says next goes by what it knows of its session.
        if is_idle && application.unsaid() > 0 {
            return Ok(());
        }
        let rests = match mode {
            Mode::Transactions if !is_underway => application.rests(before),
            _ => Some(false),
        };
        let is_parted = relay.park(key)?;
        let behind = if is_parted {
            application.be_parted();
            raise(&mut tally.parted);
            Some(Place::Quiet)
        } else {
            before
        };
        if rests.is_some() && rests != Some(is_parted) || relay.place_of(key) != behind {
            tally.note(Wrong::Parted);
        }
        self.settle(None, tally)
    }

    /// Whether something is underway on the connection that an application holds: also what it took back.
    fn is_underway(&self, place: usize) -> bool {
        let Some(Some(application)) = self.applications.get(place) else {
            return false;
        };
        let number = number_of(self.relay.place_of(application.key));
        for connection in self.connections.iter() {
            if number == Some(connection.number) && connection.is_underway() {
                return true;
            }
        }
        false
    }

    /// Who runs the relay does something; or nothing new begins for a while.
    pub(super) fn manage(
        &mut self,
        random: &mut Random,
        tally: &mut Tally,
    ) -> Result<(), AllocError> {
        match random.below(8) {
            0 | 1 => {
                self.most = random.up_to(self.kind.connections);
                self.relay.set_most(self.most)?;
                self.settle(None, tally)
            }
            2 => self.bring(tally),
            3 | 4 => self.rest(random, tally),
            _ => self.finish(random, tally),
        }
    }

    /// A connection comes that is open: it is taken where there is no other.
    pub(super) fn bring(&mut self, tally: &mut Tally) -> Result<(), AllocError> {
        let is_first = self.relay.connections() == 0;
        let tag = self.next_tag();
        let number = self.relay.bring(tag)?;
        if number.is_some() != is_first {
            tally.note(Wrong::Brought);
        }
        if let Some(number) = number {
            let mut connection = Connection::new(self.alloc, number, tag, self.most_data());
            connection.is_open = true;
            connection.is_owed = true;
            self.connections.push(connection)?;
            raise(&mut self.seen.cleanings);
            raise(&mut tally.brought);
        }
        self.settle(None, tally)
    }

    /// The most data of a packet.
    pub(super) fn most_data(&self) -> usize {
        usize::from(self.kind.size.get()).saturating_sub(8)
    }
}
