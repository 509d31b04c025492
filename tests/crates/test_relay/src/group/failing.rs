//! What goes wrong: applications leave in the middle, connections are cut, either side breaks the protocol.

use super::Group;
use super::looking::number_of;
use crate::answers::ACKNOWLEDGED;
use crate::packets::{ANSWER, ENDS, put_packet};
use crate::random::Random;
use crate::tally::{Tally, Wrong, raise};
use std::alloc::AllocError;
use tds_relay::Place;

impl Group {
    /// An application leaves in the middle, a connection is cut, or its server breaks the protocol.
    pub(super) fn trouble(
        &mut self,
        place: usize,
        index: usize,
        random: &mut Random,
        tally: &mut Tally,
    ) -> Result<(), AllocError> {
        match random.below(5) {
            0 | 1 => {
                if self.application(place).is_some() {
                    raise(&mut tally.left);
                }
                self.leave(place, tally)
            }
            2 => self.say_nonsense(place, tally),
            3 => {
                if random.once_in(2) {
                    raise(&mut tally.lost);
                    self.lose(index, tally)
                } else {
                    Ok(())
                }
            }
            _ => self.break_protocol(index, random, tally),
        }
    }

    /// An application sends what is no packet: it has to be closed.
    fn say_nonsense(&mut self, place: usize, tally: &mut Tally) -> Result<(), AllocError> {
        let Some(application) = self.application(place) else {
            return Ok(());
        };
        if !application.is_quiet() {
            return Ok(());
        }
        application.is_doomed = true;
        let key = application.key;
        self.relay.said(key, &[0x55; 8])?;
        let is_over = self.relay.place_of(key) == Some(Place::Over);
        if self.relay.fault_of(key).is_none() || !is_over {
            tally.note(Wrong::Untold);
        }
        self.settle(Some(key), tally)
    }

    /// A connection is cut, with whatever is on its way.
    pub(super) fn lose(&mut self, index: usize, tally: &mut Tally) -> Result<(), AllocError> {
        let Some(connection) = self.connections.get(index) else {
            return Ok(());
        };
        let number = connection.number;
        self.doom(number);
        if index < self.connections.len() {
            self.connections.remove(index);
        }
        self.relay.lost(number)?;
        self.settle(None, tally)?;
        self.come_for_nothing(number, tally)
    }

    /// A server says what is no packet, or what nobody asked for: its connection has to be closed.
    fn break_protocol(
        &mut self,
        index: usize,
        random: &mut Random,
        tally: &mut Tally,
    ) -> Result<(), AllocError> {
        let Some(connection) = self.connections.get_mut(index) else {
            return Ok(());
        };
        if !connection.is_open || !connection.is_idle() {
            return Ok(());
        }
        connection.is_doomed = true;
        connection.is_broken = true;
        let number = connection.number;
        let mut bytes = Vec::new(self.alloc);
        if random.once_in(2) {
            put_packet(&mut bytes, 9, ENDS, &ACKNOWLEDGED)?;
            self.refused = Some(number);
        } else {
            put_packet(&mut bytes, ANSWER, ENDS, &ACKNOWLEDGED)?;
        }
        raise(&mut tally.broken);
        self.doom(number);
        self.relay.came(number, bytes.as_slice())?;
        let is_told = self.relay.fault_on(number).is_some()
            || self.relay.header_fault_on(number).is_some();
        if !is_told {
            tally.note(Wrong::Untold);
        }
        self.settle(None, tally)
    }

    /// There is a reason to close whoever holds this connection.
    fn doom(&mut self, number: u64) {
        let Group {
            relay,
            applications,
            ..
        } = self;
        for application in applications.iter_mut() {
            if let Some(application) = application {
                if number_of(relay.place_of(application.key)) == Some(number) {
                    application.is_doomed = true;
                }
            }
        }
    }
}
