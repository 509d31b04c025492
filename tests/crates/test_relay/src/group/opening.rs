//! Connections that open, and what comes before; and what they are called.

use super::Group;
use crate::answers::ACKNOWLEDGED;
use crate::packets::{ANSWER, ENDS, put_packet};
use crate::random::Random;
use crate::tally::{Tally, Wrong, raise};
use std::alloc::AllocError;
use tds_relay::PlaceOn;

/// The tags of connections are these and more: an application's is its place.
pub(super) const TAGS: usize = 1_000;

impl Group {
    /// One that is being opened is open now, or couldn't be; or bytes come there first, or another connection.
    pub(super) fn open(
        &mut self,
        index: usize,
        random: &mut Random,
        tally: &mut Tally,
    ) -> Result<(), AllocError> {
        let Some(connection) = self.connections.get(index) else {
            return Ok(());
        };
        if connection.is_open {
            return Ok(());
        }
        let number = connection.number;
        match random.below(20) {
            0 => self.lose(index, tally),
            1 | 2 => self.come_for_nothing(number, tally),
            3 => self.bring(tally),
            _ => self.open_well(index, tally),
        }
    }

    /// One that is being opened is open now.
    pub(super) fn open_well(&mut self, index: usize, tally: &mut Tally) -> Result<(), AllocError> {
        let Group {
            relay,
            connections,
            ..
        } = self;
        let Some(connection) = connections.get_mut(index) else {
            return Ok(());
        };
        if connection.is_open {
            return Ok(());
        }
        let number = connection.number;
        connection.is_open = true;
        connection.is_new = true;
        relay.opened(number)?;
        // Nobody may have waited for it: then it was let go.
        connection.is_owed = relay.place_on(number) != Some(PlaceOn::Opening)
            && !matches!(relay.place_on(number), Some(PlaceOn::Held(_)));
        raise(&mut tally.opened);
        self.settle(None, tally)
    }

    /// Bytes come on a connection that isn't open yet, or isn't there any more: nothing comes of them.
    pub(super) fn come_for_nothing(
        &mut self,
        number: u64,
        tally: &mut Tally,
    ) -> Result<(), AllocError> {
        let mut bytes = Vec::new(self.alloc);
        put_packet(&mut bytes, ANSWER, ENDS, &ACKNOWLEDGED)?;
        let waiting = self.relay.unsent_on(number).len();
        self.relay.came(number, bytes.as_slice())?;
        if self.relay.unsent_on(number).len() != waiting {
            tally.note(Wrong::Heeded);
        }
        self.settle(None, tally)
    }

    /// A connection is called otherwise from now on.
    pub(super) fn rename(&mut self, index: usize) {
        let tag = self.next_tag();
        let Group {
            relay,
            connections,
            ..
        } = self;
        if let Some(connection) = connections.get_mut(index) {
            connection.tag = tag;
            relay.opening(connection.number, tag);
        }
    }

    /// A tag that no connection has had.
    pub(super) fn next_tag(&mut self) -> usize {
        self.tags = self.tags.saturating_add(1);
        self.tags
    }
}
