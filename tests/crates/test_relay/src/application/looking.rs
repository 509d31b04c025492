//! What a relay has come to with an application.

use super::{Application, Phase};
use crate::tally::Wrong;
use tds_relay::{Place, Relay};

impl Application {
    /// Looks at what the relay has for it behind a call, where it is at this: nothing that waited is gone; it
    /// isn't done with a request whose answer is still awaited; a whole one that waits stands in the line.
    pub(crate) fn look(&mut self, relay: &Relay, place: Option<Place>) -> Option<Wrong> {
        let waited = self.waited;
        self.waited = relay.unsent(self.key).len();
        if self.waited < waited {
            return Some(Wrong::Dropped);
        }
        if self.phase == Phase::Quiet || !self.input.is_empty() {
            return None;
        }
        match place {
            Some(Place::Quiet | Place::Holding(_)) if self.waited == 0 => Some(Wrong::Unanswered),
            Some(Place::Waiting) if !relay.line().contains(&self.key) => Some(Wrong::OutsideLine),
            _ => None,
        }
    }

    /// Looks at it where nothing is in flight: it has its answer, or its request stands in the line.
    pub(crate) fn look_at_rest(&self, relay: &Relay) -> Option<Wrong> {
        if !relay.unsent(self.key).is_empty() {
            return Some(Wrong::Untaken);
        }
        if self.is_quiet() {
            let is_counted = self.may_have_begun(relay.begun_by(self.key));
            return if is_counted {
                None
            } else {
                Some(Wrong::Counted)
            };
        }
        match relay.place_of(self.key) {
            Some(Place::Waiting) if relay.line().contains(&self.key) => None,
            _ if self.input.is_empty() => Some(Wrong::Forgotten),
            _ => Some(Wrong::Untaken),
        }
    }

    /// Whether it rests where it is at this: nothing of it is underway on the connection that it holds, and no
    /// transaction is open. None where it took something back and no answer has come since: then nothing may
    /// have been asked on that connection yet.
    pub(crate) fn rests(&self, place: Option<Place>) -> Option<bool> {
        match place {
            Some(Place::Holding(_)) if self.state.transaction == 0 => {
                if self.is_unsure { None } else { Some(true) }
            }
            _ => Some(false),
        }
    }

    /// Whether the relay may have begun so many requests of it, where all is said.
    fn may_have_begun(&self, count: u64) -> bool {
        self.messages.saturating_sub(self.empties) <= count && count <= self.messages
    }
}
