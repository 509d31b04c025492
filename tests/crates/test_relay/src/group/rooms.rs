//! How much of applications and connections may be read.

use super::Group;
use super::looking::number_of;
use crate::application::Application;
use crate::connection::Connection;
use crate::tally::{Tally, Wrong};

/// The most bytes that are read at once, or wait besides a packet; and how many more than were read may go out.
const PIECE: usize = 32_768;

const BESIDE: usize = 704;

/// How many bytes may be read that go where so many wait, and that may become more on their way.
pub(crate) fn room_behind(waiting: usize) -> usize {
    PIECE.saturating_sub(waiting).saturating_sub(BESIDE)
}

impl Group {
    /// No more of each may be read than fits behind what waits at its other end.
    pub(super) fn look_at_rooms(&self, tally: &mut Tally) {
        for application in self.applications.iter() {
            if let Some(application) = application {
                if !self.has_its_room(application) {
                    tally.note(Wrong::Room);
                }
            }
        }
        for connection in self.connections.iter() {
            if !self.has_room_on(connection) {
                tally.note(Wrong::Room);
            }
        }
    }

    fn has_its_room(&self, application: &Application) -> bool {
        let room = self.relay.room(application.key);
        match number_of(self.relay.place_of(application.key)) {
            Some(number) => room <= room_behind(self.relay.unsent_on(number).len()),
            None => room <= PIECE,
        }
    }

    /// Where the news of a reset are to come, these may go in front of what is read.
    fn has_room_on(&self, connection: &Connection) -> bool {
        let room = self.relay.room_on(connection.number);
        let place = connection.held_by.unwrap_or(usize::MAX);
        let Some(Some(application)) = self.applications.get(place) else {
            return room == PIECE;
        };
        let waiting = self.relay.unsent(application.key).len();
        let is_whole = room == PIECE.saturating_sub(waiting);
        room == room_behind(waiting) || is_whole && !connection.owes_news
    }
}
