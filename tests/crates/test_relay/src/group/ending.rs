//! Nothing new begins, until nothing is in flight any more: then each request is answered, or stands in the line
//! behind those who hold the connections; and once these leave or rest, it is answered too.

use super::Group;
use crate::random::Random;
use crate::tally::{Tally, Wrong, raise};
use std::alloc::AllocError;
use tds_relay::{Mode, Place, PlaceOn};

/// How many times all that is in flight is carried, before that counts for never ending.
const ROUNDS: u32 = 10_000;

impl Group {
    /// All that is in flight arrives.
    pub(super) fn rest(
        &mut self,
        random: &mut Random,
        tally: &mut Tally,
    ) -> Result<(), AllocError> {
        for _ in 0..ROUNDS {
            if !self.carry(random, tally)? {
                self.look_at_rest(tally);
                return Ok(());
            }
        }
        tally.note(Wrong::Stuck);
        Ok(())
    }

    /// The same, and who waits for nothing leaves, or is parted at rest, until nobody is there.
    pub(super) fn finish(
        &mut self,
        random: &mut Random,
        tally: &mut Tally,
    ) -> Result<(), AllocError> {
        for _ in 0..=self.applications.len().saturating_mul(2) {
            self.rest(random, tally)?;
            let mut is_over = true;
            for place in 0..self.applications.len() {
                if self.application(place).is_some() {
                    is_over = false;
                    self.end_at_rest(place, random, tally)?;
                }
            }
            if is_over {
                return self.begin_anew(random, tally);
            }
        }
        tally.note(Wrong::WaitsForever);
        Ok(())
    }

    /// An application leaves, or is parted, if it waits for nothing.
    fn end_at_rest(
        &mut self,
        place: usize,
        random: &mut Random,
        tally: &mut Tally,
    ) -> Result<(), AllocError> {
        let mode = self.kind.mode;
        let Some((relay, application)) = self.relay_and(place) else {
            return Ok(());
        };
        if !application.is_quiet() {
            return Ok(());
        }
        let place_there = relay.place_of(application.key);
        let rests = application.rests(place_there) == Some(true);
        if rests && mode == Mode::Transactions && random.once_in(2) {
            self.part(place, tally)
        } else {
            self.leave(place, tally)
        }
    }

    /// Nobody is there. Sometimes all connections are cut, and one comes before anybody asks.
    fn begin_anew(&mut self, random: &mut Random, tally: &mut Tally) -> Result<(), AllocError> {
        if random.once_in(2) {
            return Ok(());
        }
        for _ in 0..self.kind.connections {
            self.lose(0, tally)?;
        }
        self.bring(tally)
    }

    /// Carries all that can be carried, each once. Whether anything was.
    fn carry(&mut self, random: &mut Random, tally: &mut Tally) -> Result<bool, AllocError> {
        let mut is_carried = false;
        for place in 0..self.applications.len() {
            is_carried |= self.carry_said(place, tally)?;
            is_carried |= self.carry_heard(place, tally)?;
        }
        for index in 0..self.connections.len() {
            is_carried |= self.carry_on(index, random, tally)?;
        }
        Ok(is_carried)
    }

    /// All that an application says, and that the relay has room for.
    fn carry_said(&mut self, place: usize, tally: &mut Tally) -> Result<bool, AllocError> {
        let Some((relay, application)) = self.relay_and(place) else {
            return Ok(false);
        };
        let key = application.key;
        let count = relay.room(key);
        if !application.say(relay, count)? {
            return Ok(false);
        }
        self.settle(Some(key), tally)?;
        Ok(true)
    }

    /// All that waits for it, once it was told.
    fn carry_heard(&mut self, place: usize, tally: &mut Tally) -> Result<bool, AllocError> {
        let Some((relay, application)) = self.relay_and(place) else {
            return Ok(false);
        };
        let waits = application.is_told && !relay.unsent(application.key).is_empty();
        self.hear(place, usize::MAX, tally)?;
        Ok(waits)
    }

    /// All that is on its way on a connection.
    fn carry_on(
        &mut self,
        index: usize,
        random: &mut Random,
        tally: &mut Tally,
    ) -> Result<bool, AllocError> {
        let Some(connection) = self.connections.get(index) else {
            return Ok(false);
        };
        if !connection.is_open {
            self.open_well(index, tally)?;
            return Ok(true);
        }
        let number = connection.number;
        let before = (self.relay.unsent_on(number).len(), connection.on_its_way());
        self.work(index, usize::MAX, random, tally)?;
        let Some(connection) = self.connections.get(index) else {
            return Ok(true);
        };
        let behind = (self.relay.unsent_on(number).len(), connection.on_its_way());
        if before != behind || connection.is_answering() {
            return Ok(true);
        }
        let is_heard = !connection.back.is_empty() && self.relay.room_on(number) > 0;
        self.deliver(index, usize::MAX, tally)?;
        Ok(is_heard)
    }

    /// Nothing is in flight any more.
    fn look_at_rest(&mut self, tally: &mut Tally) {
        for connection in self.connections.iter() {
            let number = connection.number;
            if !connection.is_at_rest() || !self.relay.unsent_on(number).is_empty() {
                tally.note(Wrong::Untaken);
            }
            if !matches!(
                self.relay.place_on(number),
                Some(PlaceOn::Held(_) | PlaceOn::Free)
            ) {
                tally.note(Wrong::NeverFree);
            }
        }
        let mut messages = self.messages;
        for application in self.applications.iter() {
            let Some(application) = application else {
                continue;
            };
            messages = messages.saturating_add(application.messages);
            tally.note_any(application.look_at_rest(&self.relay));
        }
        let counted = self.relay.counts().requests;
        if counted < self.asked || counted > messages {
            tally.note(Wrong::Counted);
        }
        if self.relay.waiting() > 0 {
            raise(&mut tally.rested);
        }
    }
}
