//! What a relay has come to, behind each call.

use super::Group;
use crate::tally::{Tally, Wrong, raise};
use tds_relay::{Place, PlaceOn};

/// The connection that an application holds.
pub(super) fn number_of(place: Option<Place>) -> Option<u64> {
    match place {
        Some(Place::Holding(number) | Place::Opening(number)) => Some(number),
        Some(Place::Asking(number) | Place::Cancelling(number)) => Some(number),
        Some(Place::Quiet | Place::Waiting | Place::Over) => None,
        None => None,
    }
}

impl Group {
    /// Who holds each connection now, and what is sent on it. This application has caused it, or none.
    pub(super) fn look_at_connections(&mut self, cause: Option<usize>, tally: &mut Tally) {
        // What is cancelled as one leaves isn't counted.
        let is_there = self.is_there(cause);
        let Group {
            relay,
            connections,
            asked,
            seen,
            ..
        } = self;
        for connection in connections.iter_mut() {
            let number = connection.number;
            let before = connection.holder;
            let holder = match relay.place_on(number) {
                // It is about to be closed.
                None => continue,
                Some(PlaceOn::Held(key)) => Some(key),
                Some(_) => None,
            };
            connection.set_holder(holder, tally);
            if connection.set_held_by(relay.holder_tag(number)) {
                raise(&mut seen.cleanings);
            }
            connection.look_at_opening(tally);
            if connection.is_open && connection.is_told {
                connection.is_told = false;
                let is_cause = cause.is_some() && before == cause;
                connection.look(relay.unsent_on(number), is_cause, tally);
                *asked = asked.saturating_add(connection.asked);
                connection.asked = 0;
                if is_there {
                    seen.cancels = seen.cancels.saturating_add(connection.stopped);
                }
                connection.stopped = 0;
            }
            connection.look_behind(tally);
        }
    }

    /// Who has begun to wait, and who has got a connection: the first one of those who waited, if
    /// anybody; nobody waits though there is a connection; and nobody waits for an answer that was lost.
    pub(super) fn look_at_line(&mut self, tally: &mut Tally) {
        let mut first_left = u64::MAX;
        let mut last_lent = 0u64;
        for application in self.applications.iter_mut() {
            let Some(application) = application else {
                continue;
            };
            let place = self.relay.place_of(application.key);
            let begun = self.relay.begun_by(application.key);
            let on = number_of(place);
            if on.is_some() && on != application.on {
                let ticket = application.ticket;
                last_lent = last_lent.max(if ticket == 0 { u64::MAX } else { ticket });
            }
            application.on = on;
            tally.note_any(application.look(&self.relay, place));
            if place != Some(Place::Waiting) {
                application.ticket = 0;
            } else if application.ticket == 0 || application.begun != begun {
                self.tickets = self.tickets.saturating_add(1);
                application.ticket = self.tickets;
                application.begun = begun;
                first_left = first_left.min(u64::MAX - 1);
            } else {
                first_left = first_left.min(application.ticket);
            }
        }
        if first_left < last_lent {
            tally.note(Wrong::OutOfLine);
        }
        if first_left < u64::MAX && self.has_room() {
            tally.note(Wrong::Unserved);
        }
    }

    /// Whether there is a connection that may be lent, or may be one more.
    fn has_room(&self) -> bool {
        for connection in self.connections.iter() {
            if self.relay.place_on(connection.number) == Some(PlaceOn::Free) {
                return true;
            }
        }
        self.relay.connections() < self.most
    }

    /// Something was sent to who holds the connection of this number, or none: that may be read again.
    pub(super) fn look_at_reader(
        &self,
        number: Option<u64>,
        told: Option<usize>,
        tally: &mut Tally,
    ) {
        for connection in self.connections.iter() {
            if number == Some(connection.number) && told != Some(connection.tag) {
                tally.note(Wrong::Unread);
            }
        }
    }

    /// So many bytes were sent on the connection of this number: who holds it may be read again.
    pub(super) fn look_at_asker(
        &self,
        number: u64,
        count: usize,
        told: Option<usize>,
        tally: &mut Tally,
    ) {
        let Some(PlaceOn::Held(key)) = self.relay.place_on(number) else {
            return;
        };
        for place in 0..self.applications.len() {
            if let Some(Some(application)) = self.applications.get(place) {
                if application.key == key && count > 0 && told != Some(place) {
                    tally.note(Wrong::Unread);
                }
            }
        }
    }

    /// No more connections came than may be. Why one was closed is told still.
    pub(super) fn look_at_count(&mut self, tally: &mut Tally) {
        let count = self.relay.connections();
        if count > self.count && count > self.most {
            tally.note(Wrong::TooMany);
        }
        self.count = count;
        if let Some(number) = self.refused {
            if self.relay.header_fault_on(number).is_none() {
                tally.note(Wrong::Untold);
            }
        }
    }

    /// What had to be closed is closed.
    pub(super) fn look_at_doomed(&mut self, tally: &mut Tally) {
        for application in self.applications.iter_mut() {
            if let Some(application) = application {
                if application.is_doomed {
                    tally.note(Wrong::KeptOpen);
                    application.is_doomed = false;
                }
            }
        }
        for connection in self.connections.iter() {
            if connection.is_broken || self.relay.place_on(connection.number).is_none() {
                tally.note(Wrong::KeptOpen);
            }
        }
    }
}
