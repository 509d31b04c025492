//! A server: it answers by its session's state, in pieces, and obeys attentions and resets.

use crate::answers::{ACKNOWLEDGED, DONE, State, token_end};
use crate::packets::{
    ANSWER, BULK_LOAD, ENDS, IGNORED, Packet, RESETS, RESETS_BUT_TRANSACTION, put_packet,
};
use crate::random::Random;
use crate::request::Request;
use crate::tally::{Tally, Wrong};
use std::alloc::{AllocError, Global};
use tds_packet::Reset;

/// The text of a cleaning, in UCS-2.
pub(crate) const CLEANING: &[u8] =
    b"s\0e\0t\0 \0t\0r\0a\0n\0s\0a\0c\0t\0i\0o\0n\0 \0i\0s\0o\0l\0a\0t\0i\0o\0n\0 \0l\0e\0v\0e\0l\0 \0r\0e\0a\0d\0 \0c\0o\0m\0m\0i\0t\0t\0e\0d\0";

/// How many bytes of it tell that it is one.
const FIRST: usize = 8;

/// The server's end.
#[derive(Drop)]
pub(crate) struct Server {
    state: State,
    /// The data of the message that comes, what its first packet says, and whether one has come.
    message: Vec<u8>,
    kind: u8,
    status: u8,
    has_begun: bool,
    /// The answer, of which the first bytes were sent.
    answer: Vec<u8>,
    sent: usize,
    is_answering: bool,
    /// The most data of its packets.
    most: usize,
}

impl Server {
    /// One whose packets have at most so many bytes of data.
    pub(crate) fn new(alloc: Global, most: usize) -> Server {
        Server {
            state: State::fresh(),
            message: Vec::new(alloc),
            kind: 0,
            status: 0,
            has_begun: false,
            answer: Vec::new(alloc),
            sent: 0,
            is_answering: false,
            most,
        }
    }

    /// Whether it has more of an answer to send.
    pub(crate) fn is_answering(&self) -> bool {
        self.is_answering
    }

    /// A packet of a request has come. False where a cleaning fails.
    pub(crate) fn take(
        &mut self,
        packet: Packet<'_>,
        random: &mut Random,
        tally: &mut Tally,
    ) -> Result<bool, AllocError> {
        if !self.has_begun {
            self.has_begun = true;
            self.kind = packet.kind;
            self.status = packet.status;
        }
        self.message.extend_from_slice(packet.data)?;
        if !packet.ends() {
            return Ok(true);
        }
        let mut is_done = true;
        if packet.status & IGNORED == 0 {
            is_done = self.run(random, tally)?;
        }
        self.has_begun = false;
        self.message.clear();
        Ok(is_done)
    }

    /// A request has come whole. False where a cleaning fails.
    fn run(&mut self, random: &mut Random, tally: &mut Tally) -> Result<bool, AllocError> {
        self.answer.clear();
        self.sent = 0;
        self.is_answering = true;
        let (descriptor, body) = parts_of(self.kind, self.message.as_slice());
        if is_cleaning(body) {
            if random.once_in(50) {
                self.answer.extend_from_slice(&DONE)?;
                return Ok(false);
            }
            reset(&mut self.state, self.status, &mut self.answer)?;
            self.answer.extend_from_slice(&DONE)?;
            return Ok(true);
        }
        if descriptor != Some(self.state.transaction) && self.kind != BULK_LOAD {
            tally.note(Wrong::Transaction);
        }
        let Some(request) = Request::read(self.kind, body) else {
            tally.note(Wrong::Body);
            self.answer.extend_from_slice(&DONE)?;
            return Ok(true);
        };
        reset(&mut self.state, self.status, &mut self.answer)?;
        let news = self.answer.len();
        self.state.answer(&request, &mut self.answer)?;
        if news > 0 && request.tells_late() {
            // The token behind the news, in front of that.
            let end = token_end(self.answer.as_slice(), news.saturating_add(1));
            let end = end.min(self.answer.len());
            let (front, _) = self.answer.as_mut_slice().split_at_mut(end);
            front.rotate_left(news.min(front.len()));
        }
        Ok(true)
    }

    /// Sends a part of the answer, cut anywhere, or much of a long one.
    pub(crate) fn send(
        &mut self,
        random: &mut Random,
        back: &mut Vec<u8>,
    ) -> Result<(), AllocError> {
        let most = if random.once_in(3) { 20 } else { self.most };
        let packets = if random.once_in(4) {
            random.up_to(40)
        } else {
            1
        };
        for _ in 0..packets {
            let count = if packets > 1 {
                self.most
            } else {
                random.up_to(most)
            };
            self.send_packet(count, back)?;
            if !self.is_answering {
                break;
            }
        }
        Ok(())
    }

    fn send_packet(&mut self, count: usize, back: &mut Vec<u8>) -> Result<(), AllocError> {
        let rest = match self.answer.as_slice().get(self.sent..) {
            Some(rest) => rest,
            None => &[],
        };
        let count = count.min(rest.len());
        let (part, others) = rest.split_at(count);
        let status = if others.is_empty() { ENDS } else { 0 };
        put_packet(back, ANSWER, status, part)?;
        self.sent = self.sent.saturating_add(count);
        self.is_answering = !others.is_empty();
        Ok(())
    }

    /// An attention has come: the rest of the answer isn't sent, but for the token that was begun.
    pub(crate) fn stop(&mut self, back: &mut Vec<u8>) -> Result<(), AllocError> {
        if self.is_answering {
            let end = token_end(self.answer.as_slice(), self.sent);
            if let Some(rest) = self.answer.as_slice().get(self.sent..end) {
                if !rest.is_empty() {
                    put_packet(back, ANSWER, 0, rest)?;
                }
            }
        }
        self.is_answering = false;
        self.has_begun = false;
        self.message.clear();
        put_packet(back, ANSWER, ENDS, &ACKNOWLEDGED)
    }
}

/// Whether this is the body of a cleaning.
pub(crate) fn is_cleaning(body: &[u8]) -> bool {
    match CLEANING.get(..FIRST) {
        Some(first) => body.starts_with(first),
        None => false,
    }
}

/// What a request's first packet asks for is done first.
fn reset(state: &mut State, status: u8, answer: &mut Vec<u8>) -> Result<(), AllocError> {
    if status & RESETS != 0 {
        return state.reset(Reset::Full, answer);
    }
    if status & RESETS_BUT_TRANSACTION != 0 {
        return state.reset(Reset::KeepTransaction, answer);
    }
    Ok(())
}

/// The descriptor in a message's headers, and the body behind them.
fn parts_of(kind: u8, message: &[u8]) -> (Option<u64>, &[u8]) {
    if kind == BULK_LOAD {
        return (None, message);
    }
    match message {
        [
            _,
            _,
            _,
            _,
            _,
            _,
            _,
            _,
            _,
            _,
            a,
            b,
            c,
            d,
            e,
            f,
            g,
            h,
            _,
            _,
            _,
            _,
            body @ ..,
        ] => (
            Some(u64::from_le_bytes([*a, *b, *c, *d, *e, *f, *g, *h])),
            body,
        ),
        _ => (None, message),
    }
}
