//! What a relay has done, counted beside it; and which connections it has.

use super::Group;
use super::looking::number_of;
use crate::tally::{Tally, Wrong};

/// How often a relay was seen to do what it counts.
#[derive(Clone, Copy)]
pub(super) struct Seen {
    /// Attentions that went out for what an application said itself.
    pub(super) cancels: u64,
    /// Connections that were let go or brought; and those that nobody held which were closed instead.
    pub(super) cleanings: u64,
    pub(super) failed: u64,
}

impl Seen {
    pub(super) fn nothing() -> Seen {
        Seen {
            cancels: 0,
            cleanings: 0,
            failed: 0,
        }
    }
}

impl Group {
    /// The relay counts what was seen. What it has asked is looked at where nothing is in flight.
    pub(super) fn look_at_counts(&self, tally: &mut Tally) {
        let counts = self.relay.counts();
        let seen = self.seen;
        if counts.cancels != seen.cancels
            || counts.cleanings != seen.cleanings
            || counts.failed != seen.failed
        {
            tally.note(Wrong::Counted);
        }
    }

    /// It has just the connections that are here, and calls each as it is called here.
    pub(super) fn look_at_names(&self, tally: &mut Tally) {
        if self.relay.connections() != self.connections.len() {
            tally.note(Wrong::OtherConnections);
        }
        for connection in self.connections.iter() {
            if !self.is_called(connection.number, Some(connection.tag)) {
                tally.note(Wrong::Misnamed);
            }
        }
    }

    /// Whether the relay calls the connection of this number so, or nothing yet, where an application holds it.
    pub(super) fn is_called(&self, number: u64, tag: Option<usize>) -> bool {
        for application in self.applications.iter() {
            if let Some(application) = application {
                let key = application.key;
                if number_of(self.relay.place_of(key)) == Some(number)
                    && self.relay.held_tag(key) != tag
                {
                    return false;
                }
            }
        }
        true
    }

    /// Whether the application of this key is there.
    pub(super) fn is_there(&self, key: Option<usize>) -> bool {
        for application in self.applications.iter() {
            if let Some(application) = application {
                if key == Some(application.key) {
                    return true;
                }
            }
        }
        false
    }
}
