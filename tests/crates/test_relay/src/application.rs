//! An application, and what it would hear of a server of its own.

mod looking;

use crate::answers::{ACKNOWLEDGED, State, is_cut, is_part};
use crate::packets::{ANSWER, ATTENTION, ENDS, IGNORED, Stream, packet_in, put_packet};
use crate::random::Random;
use crate::request::{
    Action, LONG, Request, any_action, any_kind, any_padding, any_reset, any_size, message_data,
    put_data,
};
use crate::tally::{Tally, Wrong, raise};
use std::alloc::{AllocError, Global};
use tds_packet::Reset;
use tds_relay::Relay;

/// Their acknowledgements are more than may wait for it.
const MOST_STOPS: usize = 2_500;

#[derive(Clone, Copy, Debug, PartialEq, Eq)]
enum Phase {
    Quiet,
    /// It waits for the answer that is expected.
    Asked,
    /// It has cancelled that: it may come whole, or cut by the acknowledgement.
    Cancelled,
    /// It waits for an acknowledgement, and nothing else may come.
    Stopped,
}

#[derive(Drop)]
pub(crate) struct Application {
    pub(crate) key: usize,
    pub(crate) session: u32,
    /// The bytes that it has still to send.
    pub(crate) input: Stream,
    /// When it began to wait for a connection; 0 where it doesn't.
    pub(crate) ticket: u64,
    /// The request that it waits with, and the connection that it holds, as they were seen last.
    pub(crate) begun: u64,
    pub(crate) on: Option<u64>,
    /// How many bytes waited for it then.
    pub(crate) waited: usize,
    /// Whether there is something for it to be read.
    pub(crate) is_told: bool,
    /// Whether there is a reason to close it.
    pub(crate) is_doomed: bool,
    phase: Phase,
    /// The session that a server of its own would have.
    state: State,
    may_cancel: bool,
    /// How many acknowledgements it waits for, where it waits for nothing else.
    stops: usize,
    /// Whether it took anything back, and no whole answer has come since.
    is_unsure: bool,
    /// How much of a body comes that it has begun to send.
    pub(crate) is_long: bool,
    expected: Vec<u8>,
    /// Bytes of a packet that isn't whole, and the data of the message that comes.
    packet: Stream,
    message: Vec<u8>,
    /// How many requests it has asked, how many it wants to, and the most data of a packet.
    asked: u8,
    most: u8,
    most_data: usize,
    /// How many messages it has begun to send, and how many of them have no data and are to be forgotten.
    pub(crate) messages: u64,
    empties: u64,
}

impl Application {
    pub(crate) fn new(
        alloc: Global,
        key: usize,
        session: u32,
        most: u8,
        most_data: usize,
    ) -> Application {
        Application {
            key,
            session,
            input: Stream::new(alloc),
            ticket: 0,
            begun: 0,
            on: None,
            waited: 0,
            is_told: false,
            is_doomed: false,
            phase: Phase::Quiet,
            state: State::fresh(),
            may_cancel: false,
            stops: 0,
            is_unsure: false,
            is_long: false,
            expected: Vec::new(alloc),
            packet: Stream::new(alloc),
            message: Vec::new(alloc),
            asked: 0,
            most,
            most_data,
            messages: 0,
            empties: 0,
        }
    }

    /// Whether it has nothing to send and waits for nothing.
    pub(crate) fn is_quiet(&self) -> bool {
        self.phase == Phase::Quiet && self.input.is_empty()
    }

    /// Whether it is quiet and took something back, and no answer has come since.
    pub(crate) fn has_taken_back(&self) -> bool {
        self.is_quiet() && self.is_unsure
    }

    /// Whether it has asked all that it wants to.
    pub(crate) fn is_done(&self) -> bool {
        self.is_quiet() && self.asked >= self.most
    }

    // ---- What it says

    /// Does the next thing.
    pub(crate) fn act(
        &mut self,
        alloc: Global,
        random: &mut Random,
        tally: &mut Tally,
    ) -> Result<(), AllocError> {
        if self.phase == Phase::Asked && self.may_cancel {
            if random.once_in(2) {
                return self.cancel();
            }
            return Ok(());
        }
        if !self.is_quiet() || self.asked >= self.most {
            return Ok(());
        }
        match random.below(14) {
            0 => self.stop_often(random),
            1 => self.begin_and_stop(alloc, random),
            2..=4 => {
                self.begin_and_forget(alloc, random)?;
                // The server may still have to acknowledge that, as the next request comes.
                if self.asked < self.most && random.once_in(2) {
                    self.ask(alloc, random, tally)
                } else {
                    Ok(())
                }
            }
            _ => self.ask(alloc, random, tally),
        }
    }

    /// An attention for what is underway.
    fn cancel(&mut self) -> Result<(), AllocError> {
        self.phase = Phase::Cancelled;
        self.is_unsure = true;
        put_packet(self.input.bytes(), ATTENTION, ENDS, &[])
    }

    /// An attention for nothing.
    fn stop(&mut self) -> Result<(), AllocError> {
        self.phase = Phase::Stopped;
        self.stops = 1;
        put_packet(self.input.bytes(), ATTENTION, ENDS, &[])
    }

    /// The same, and sometimes so many more that a relay can't take them all at once.
    fn stop_often(&mut self, random: &mut Random) -> Result<(), AllocError> {
        self.stop()?;
        if random.once_in(8) {
            for _ in 0..random.up_to(MOST_STOPS) {
                put_packet(self.input.bytes(), ATTENTION, ENDS, &[])?;
                self.stops = self.stops.saturating_add(1);
            }
        }
        Ok(())
    }

    /// The next request.
    fn next(&mut self, random: &mut Random, action: Action) -> Request {
        self.asked = self.asked.saturating_add(1);
        raise(&mut self.messages);
        Request {
            session: self.session,
            number: self.asked,
            action,
            kind: any_kind(random),
            padding: any_padding(random),
        }
    }

    /// Some packets of a request that isn't whole. Sometimes it asks for a reset: nothing is to tell that
    /// this is done, and what it asks next finds a session that is reset.
    fn begin(&mut self, alloc: Global, random: &mut Random) -> Result<u8, AllocError> {
        let mut request = self.next(random, Action::Get);
        if random.below(4) > 0 {
            // Of some packets the server has something then.
            request.padding = random.below(3_000) as u16;
        }
        self.is_unsure = true;
        let kind = request.kind;
        let bytes = message_data(alloc, kind, self.state.transaction, &request)?;
        let size = any_size(random, &request, self.most_data);
        let reset = random.once_in(4).then_some(Reset::Full);
        put_data(self.input.bytes(), kind, reset, bytes.as_slice(), size, 0)?;
        if reset.is_some() {
            self.state = State::fresh();
        }
        Ok(kind)
    }

    fn begin_and_stop(&mut self, alloc: Global, random: &mut Random) -> Result<(), AllocError> {
        self.begin(alloc, random)?;
        self.stop()
    }

    /// It ends a message that the server is to forget: nothing answers that (MS-TDS 2.2.3.1.2). Sometimes
    /// that is all of it.
    fn begin_and_forget(&mut self, alloc: Global, random: &mut Random) -> Result<(), AllocError> {
        if random.once_in(4) {
            let kind = any_kind(random);
            raise(&mut self.messages);
            raise(&mut self.empties);
            self.is_unsure = true;
            return put_packet(self.input.bytes(), kind, ENDS | IGNORED, &[]);
        }
        let kind = self.begin(alloc, random)?;
        put_packet(self.input.bytes(), kind, ENDS | IGNORED, &[])
    }

    fn ask(
        &mut self,
        alloc: Global,
        random: &mut Random,
        tally: &mut Tally,
    ) -> Result<(), AllocError> {
        let action = any_action(random);
        let request = self.next(random, action);
        let reset = match any_reset(self.is_unsure, random) {
            // By how the answer is cut the relay tells it in front of all else, or where the server does.
            Some(_) if request.tells_late() => None,
            reset => reset,
        };
        let kind = request.kind;
        let bytes = message_data(alloc, kind, self.state.transaction, &request)?;
        let size = any_size(random, &request, self.most_data);
        put_data(
            self.input.bytes(),
            kind,
            reset,
            bytes.as_slice(),
            size,
            ENDS,
        )?;
        self.expected.clear();
        if let Some(reset) = reset {
            self.state.reset(reset, &mut self.expected)?;
            raise(&mut tally.resets);
        }
        self.state.answer(&request, &mut self.expected)?;
        self.phase = Phase::Asked;
        self.is_long = request.padding == LONG;
        self.may_cancel = request.action.only_reads() && reset.is_none();
        if self.may_cancel && random.once_in(8) {
            return self.cancel();
        }
        Ok(())
    }

    /// How many bytes it has still to send.
    pub(crate) fn unsaid(&self) -> usize {
        self.input.rest().len()
    }

    /// Whether that is more attentions than acknowledgements may wait for it.
    pub(crate) fn floods(&self) -> bool {
        self.stops > 1_700 && self.unsaid() > 8 * 1_700
    }

    /// Hands so many of its bytes to the relay, if there are so many. False where there are none.
    pub(crate) fn say(&mut self, relay: &mut Relay, count: usize) -> Result<bool, AllocError> {
        let said = self.input.first(count);
        let count = said.len();
        if count == 0 {
            return Ok(false);
        }
        relay.said(self.key, said)?;
        self.input.take(count);
        Ok(true)
    }

    /// It was parted from its connection: its next request finds a session as it was at first.
    pub(crate) fn be_parted(&mut self) {
        self.state = State::fresh();
    }

    // ---- What it hears

    /// These bytes came.
    pub(crate) fn hear(&mut self, bytes: &[u8], tally: &mut Tally) -> Result<(), AllocError> {
        self.packet.bytes().extend_from_slice(bytes)?;
        for _ in 0..=bytes.len() {
            let Some(packet) = packet_in(self.packet.rest()) else {
                break;
            };
            if packet.kind != ANSWER {
                tally.note(Wrong::Answer);
            }
            if packet.data.len() > self.most_data {
                tally.note(Wrong::Length);
            }
            self.message.extend_from_slice(packet.data)?;
            let (count, ends) = (packet.count(), packet.ends());
            self.packet.take(count);
            if ends {
                self.hear_end(tally);
                self.message.clear();
            }
        }
        Ok(())
    }

    /// A message has come.
    fn hear_end(&mut self, tally: &mut Tally) {
        let message = self.message.as_slice();
        match self.phase {
            Phase::Quiet => tally.note(Wrong::Unasked),
            Phase::Asked => {
                self.phase = Phase::Quiet;
                self.is_unsure = false;
                if message == self.expected.as_slice() {
                    raise(&mut tally.answers);
                } else {
                    tally.note(Wrong::Answer);
                }
            }
            Phase::Cancelled => {
                if message == self.expected.as_slice() {
                    self.phase = Phase::Stopped;
                    self.stops = 1;
                    self.is_unsure = false;
                    raise(&mut tally.answers);
                    return;
                }
                self.phase = Phase::Quiet;
                raise(&mut tally.cancels);
                if !is_cut(message, self.expected.as_slice()) {
                    tally.note(Wrong::Answer);
                } else if message.len() > ACKNOWLEDGED.len() {
                    raise(&mut tally.cut_answers);
                }
            }
            Phase::Stopped => {
                self.stops = self.stops.saturating_sub(1);
                if self.stops == 0 {
                    self.phase = Phase::Quiet;
                }
                raise(&mut tally.cancels);
                if message != ACKNOWLEDGED.as_slice() {
                    tally.note(Wrong::Acknowledgement);
                }
            }
        }
    }

    /// It is closed. What has come must be the front part of what is expected.
    pub(crate) fn hear_close(&self, tally: &mut Tally) {
        let is_right = match self.phase {
            Phase::Quiet => self.message.is_empty(),
            Phase::Asked => is_part(self.message.as_slice(), self.expected.as_slice()),
            Phase::Cancelled | Phase::Stopped => true,
        };
        if !is_right {
            tally.note(Wrong::Answer);
        }
    }
}
