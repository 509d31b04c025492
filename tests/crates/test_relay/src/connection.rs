//! A connection's server, and what a relay does on it.

use crate::answers::ACKNOWLEDGED;
use crate::packets::{ATTENTION, Packet, RESETS, Stream, packet_in};
use crate::random::Random;
use crate::server::{CLEANING, Server, is_cleaning};
use crate::tally::{Tally, Wrong, raise};
use std::alloc::{AllocError, Global};
use tds_relay::Relay;

#[derive(Drop)]
pub(crate) struct Connection {
    pub(crate) number: u64,
    /// What the relay calls it.
    pub(crate) tag: usize,
    pub(crate) is_open: bool,
    /// Whether it has opened in the last call.
    pub(crate) is_new: bool,
    /// The application that holds it, as it was seen last.
    pub(crate) holder: Option<usize>,
    /// The tag of who holds it, also while it isn't open.
    pub(crate) held_by: Option<usize>,
    /// Whether it was let go and no cleaning has been sent since.
    pub(crate) is_owed: bool,
    /// Whether there is something for it to be read.
    pub(crate) is_told: bool,
    /// Whether there is a reason to close it.
    pub(crate) is_doomed: bool,
    /// Whether its server has broken the protocol.
    pub(crate) is_broken: bool,
    /// Whether a request was sent whose end the relay hasn't heard, and an attention behind it.
    is_underway: bool,
    is_cancelled: bool,
    /// Whether it was ever cleaned, and whether it was lent behind that and nothing has come back since: its next
    /// request asks for a reset, of which the news are to come.
    was_cleaned: bool,
    pub(crate) owes_news: bool,
    /// How many bytes were looked at that wait in the relay.
    looked: usize,
    /// How many requests were asked on it that aren't cleanings, and how many attentions sent.
    pub(crate) asked: u64,
    pub(crate) stopped: u64,
    /// The most data of a packet.
    most: usize,
    /// What is on its way to the server, and back.
    there: Stream,
    pub(crate) back: Stream,
    /// Bytes of a packet that has come back in part, and the data of that message.
    pub(crate) heard: Stream,
    message: Vec<u8>,
    server: Server,
}

impl Connection {
    pub(crate) fn new(alloc: Global, number: u64, tag: usize, most: usize) -> Connection {
        Connection {
            number,
            tag,
            is_open: false,
            is_new: false,
            holder: None,
            held_by: None,
            is_owed: false,
            is_told: false,
            is_doomed: false,
            is_broken: false,
            is_underway: false,
            is_cancelled: false,
            was_cleaned: false,
            owes_news: false,
            looked: 0,
            asked: 0,
            stopped: 0,
            most,
            there: Stream::new(alloc),
            back: Stream::new(alloc),
            heard: Stream::new(alloc),
            message: Vec::new(alloc),
            server: Server::new(alloc, most),
        }
    }

    /// Whether nothing is underway on it, nor on its way.
    pub(crate) fn is_idle(&self) -> bool {
        !self.is_underway && self.back.is_empty() && self.heard.is_empty()
    }

    /// Whether a request was sent on it whose end the relay hasn't heard.
    pub(crate) fn is_underway(&self) -> bool {
        self.is_underway
    }

    /// It is held by this application now, or by none.
    pub(crate) fn set_holder(&mut self, holder: Option<usize>, tally: &mut Tally) {
        if self.holder == holder {
            return;
        }
        if holder.is_some() && (self.holder.is_some() || self.is_owed || self.is_underway) {
            tally.note(Wrong::Unclean);
        }
        if self.holder.is_some() {
            self.is_owed = true;
        }
        self.owes_news = holder.is_some() && self.was_cleaned;
        self.holder = holder;
    }

    /// Whoever writes there is told that it has opened.
    pub(crate) fn look_at_opening(&mut self, tally: &mut Tally) {
        if self.is_new && !self.is_told {
            tally.note(Wrong::Unwritten);
        }
        self.is_new = false;
    }

    /// It is held by who has this tag now, or by none. Whether it was let go.
    pub(crate) fn set_held_by(&mut self, held_by: Option<usize>) -> bool {
        let before = self.held_by;
        self.held_by = held_by;
        before.is_some() && before != held_by
    }

    /// These bytes wait in the relay, of which the last ones are new: whole packets. An attention must be
    /// caused by `before`, who held the connection before the call.
    pub(crate) fn look(&mut self, unsent: &[u8], is_cause: bool, tally: &mut Tally) {
        let mut rest = match unsent.get(self.looked..) {
            Some(new) => new,
            None => {
                tally.note(Wrong::Dropped);
                &[]
            }
        };
        self.looked = unsent.len();
        for _ in 0..unsent.len() {
            let Some(packet) = packet_in(rest) else {
                break;
            };
            self.look_at(packet, is_cause, tally);
            rest = match rest.get(packet.count()..) {
                Some(others) => others,
                None => &[],
            };
        }
    }

    /// So many bytes come to the server of those that wait in the relay, if there are so many. Answers how
    /// many, and what the relay answers.
    pub(crate) fn get(
        &mut self,
        relay: &mut Relay,
        count: usize,
        tally: &mut Tally,
    ) -> Result<(usize, Option<usize>), AllocError> {
        let unsent = relay.unsent_on(self.number);
        let waited = unsent.len();
        let count = count.min(self.looked).min(waited);
        let (first, _) = unsent.split_at(count);
        self.there.bytes().extend_from_slice(first)?;
        self.looked -= count;
        let told = relay.sent_on(self.number, count);
        if relay.unsent_on(self.number).len() != waited.saturating_sub(count) {
            tally.note(Wrong::Dropped);
        }
        Ok((count, told))
    }

    /// How many bytes are on their way there, and back.
    pub(crate) fn on_its_way(&self) -> (usize, usize) {
        (self.there.rest().len(), self.back.rest().len())
    }

    /// Whether its server has more of an answer to send.
    pub(crate) fn is_answering(&self) -> bool {
        self.server.is_answering()
    }

    /// Whether nothing is on its way there or back, and its server has nothing to say.
    pub(crate) fn is_at_rest(&self) -> bool {
        self.there.is_empty() && self.back.is_empty() && !self.server.is_answering()
    }

    /// Looks at a packet that a relay sends.
    fn look_at(&mut self, packet: Packet<'_>, is_cause: bool, tally: &mut Tally) {
        if packet.data.len() > self.most {
            tally.note(Wrong::Length);
        }
        if packet.kind == ATTENTION {
            if !is_cause || !self.is_underway || self.is_cancelled {
                tally.note(Wrong::Astray);
            }
            self.is_cancelled = true;
            raise(&mut self.stopped);
            return;
        }
        if self.is_underway {
            return;
        }
        self.is_underway = true;
        let text = match packet.data.get(22..) {
            Some(text) => text,
            None => &[],
        };
        if !is_cleaning(text) {
            raise(&mut self.asked);
            // Who caused the call may have let it go behind this.
            if !is_cause && (self.holder.is_none() || self.is_owed) {
                tally.note(Wrong::Unclean);
            }
            return;
        }
        let is_whole = text == CLEANING && packet.status & RESETS != 0;
        if self.holder.is_some() || !self.is_owed || !is_whole {
            tally.note(Wrong::Cleaning);
        }
        self.is_owed = false;
        self.was_cleaned = true;
        raise(&mut tally.cleaned);
    }

    /// Behind a call: what was let go is being cleaned, or what is underway there is cancelled.
    pub(crate) fn look_behind(&mut self, tally: &mut Tally) {
        if self.is_open && self.is_owed && !(self.is_underway && self.is_cancelled) {
            tally.note(Wrong::Orphan);
            self.is_owed = false;
        }
    }

    /// So many bytes are about to come back.
    pub(crate) fn deliver(&mut self, count: usize) -> Result<(), AllocError> {
        self.owes_news = false;
        self.heard
            .bytes()
            .extend_from_slice(self.back.first(count))?;
        for _ in 0..=count {
            let Some(packet) = packet_in(self.heard.rest()) else {
                break;
            };
            self.message.extend_from_slice(packet.data)?;
            let (taken, ends) = (packet.count(), packet.ends());
            self.heard.take(taken);
            if ends {
                self.hear_end();
            }
        }
        Ok(())
    }

    /// A message has come back. Behind an attention its acknowledgement ends what is underway.
    fn hear_end(&mut self) {
        let is_acknowledged = ends_with_acknowledgement(self.message.as_slice());
        if is_acknowledged || !self.is_cancelled {
            self.is_underway = false;
            self.is_cancelled = false;
        }
        self.message.clear();
    }

    /// The server does something. Some of its cleanings fail: it doesn't reset, and the relay has to
    /// close the connection.
    pub(crate) fn work(
        &mut self,
        random: &mut Random,
        tally: &mut Tally,
    ) -> Result<(), AllocError> {
        if self.server.is_answering() && random.below(4) > 0 {
            return self.server.send(random, self.back.bytes());
        }
        let Some(packet) = packet_in(self.there.rest()) else {
            return Ok(());
        };
        let count = packet.count();
        if packet.kind == ATTENTION {
            self.server.stop(self.back.bytes())?;
        } else if !self.server.is_answering() {
            if !self.server.take(packet, random, tally)? {
                self.is_doomed = true;
            }
        } else {
            return Ok(());
        }
        self.there.take(count);
        Ok(())
    }
}

fn ends_with_acknowledgement(message: &[u8]) -> bool {
    let from = message.len().saturating_sub(ACKNOWLEDGED.len());
    match message.get(from..) {
        Some(end) => end == ACKNOWLEDGED.as_slice(),
        None => false,
    }
}
