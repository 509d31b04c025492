//! What was seen, and what was wrong.

/// What a relay did wrong.
#[derive(Clone, Copy, Debug, PartialEq, Eq)]
pub(crate) enum Wrong {
    /// An application got other bytes than a server of its own would send.
    Answer,
    /// It got a message that it didn't wait for.
    Unasked,
    /// It got something else than the acknowledgement of its attention.
    Acknowledgement,
    /// The relay is done with its request, and it got no answer, or not all of it.
    Unanswered,
    /// It was closed without a reason.
    Closed,
    /// It wasn't closed, or its connection wasn't, though there was a reason.
    KeptOpen,
    /// A connection was closed without a reason.
    ConnectionClosed,
    /// A connection was let go and not cleaned, nor its request cancelled, in the same call; or not cleaned
    /// in the call in which it had drained.
    Orphan,
    /// A connection was cleaned that somebody held, or that was clean; or a cleaning asks for no reset.
    Cleaning,
    /// It was lent, or asked, before it was clean.
    Unclean,
    /// An attention went out that its application didn't cause, or that nothing was there for.
    Astray,
    /// Who came later was lent a connection earlier.
    OutOfLine,
    /// Somebody waits though there is a connection, or may be one more.
    Unserved,
    /// A request came to the server with another transaction than the session's.
    Transaction,
    /// It came with another body than it was sent with, or in packets of another type.
    Body,
    /// An application or a server broke the protocol, and the relay doesn't say how.
    Untold,
    /// Bytes that waited for an application or on a connection are gone, and weren't sent.
    Dropped,
    /// Who may be read again, since something was sent, isn't told.
    Unread,
    /// A connection has opened, and nobody is told to write there.
    Unwritten,
    /// Something came of bytes on a connection that isn't open, or isn't there.
    Heeded,
    /// More of an application or a connection may be read than fits, or less than is to be.
    Room,
    /// A packet is longer than the packet size.
    Length,
    /// There are more connections than may be.
    TooMany,
    /// One that has come first wasn't taken, or was though there were others.
    Brought,
    /// An application was parted from its connection though it doesn't rest, or wasn't though it does.
    Parted,
    /// More or fewer requests were begun or asked, or attentions sent, or connections cleaned or closed instead,
    /// than its counts say.
    Counted,
    /// It has other connections than those that were opened, or brought, and not closed.
    OtherConnections,
    /// What an application holds is called otherwise than the driver calls it, or before that calls it so.
    Misnamed,
    /// A request waits for a connection, all of it, and isn't in the line.
    OutsideLine,
    /// Nothing is in flight any more, and something isn't read, or waits and nobody is told.
    Untaken,
    /// Nothing is in flight any more, and a request is neither answered nor in the line.
    Forgotten,
    /// Nothing is in flight any more, and a connection that nobody holds can't be lent.
    NeverFree,
    /// All others have left or rest, and an application waits still.
    WaitsForever,
    /// Nothing goes on.
    Stuck,
}

#[derive(Clone, Copy)]
pub(crate) struct Tally {
    pub(crate) sessions: u64,
    pub(crate) answers: u64,
    /// Attentions whose acknowledgement came, and those of them that cut an answer.
    pub(crate) cancels: u64,
    pub(crate) cut_answers: u64,
    /// Resets that applications asked for.
    pub(crate) resets: u64,
    /// Sessions that ended in the middle of something.
    pub(crate) left: u64,
    /// Sessions that were closed, each for a reason.
    pub(crate) closed: u64,
    pub(crate) opened: u64,
    pub(crate) cleaned: u64,
    /// Applications that were parted from their connections at rest.
    pub(crate) parted: u64,
    /// How many times nothing was in flight any more, and somebody waited then.
    pub(crate) rested: u64,
    /// Connections that came before anybody asked.
    pub(crate) brought: u64,
    /// Connections that were cut, and those whose server broke the protocol.
    pub(crate) lost: u64,
    pub(crate) broken: u64,
    pub(crate) wrong: u64,
    /// The first one of each kind that was wrong, of the first kinds, and the session that began last then.
    pub(crate) first: [Option<(Wrong, u64)>; 4],
}

impl Tally {
    pub(crate) fn none() -> Tally {
        Tally {
            sessions: 0,
            answers: 0,
            cancels: 0,
            cut_answers: 0,
            resets: 0,
            left: 0,
            closed: 0,
            opened: 0,
            cleaned: 0,
            parted: 0,
            rested: 0,
            brought: 0,
            lost: 0,
            broken: 0,
            wrong: 0,
            first: [None; 4],
        }
    }

    pub(crate) fn note(&mut self, wrong: Wrong) {
        self.wrong = self.wrong.saturating_add(1);
        for first in self.first.iter_mut() {
            match *first {
                Some((kind, _)) if kind == wrong => return,
                Some(_) => {}
                None => {
                    *first = Some((wrong, self.sessions));
                    return;
                }
            }
        }
    }

    pub(crate) fn note_any(&mut self, wrong: Option<Wrong>) {
        if let Some(wrong) = wrong {
            self.note(wrong);
        }
    }

    /// The least often that a kind of thing has happened.
    pub(crate) fn least(&self) -> u64 {
        let mut least = u64::MAX;
        for count in [
            self.answers,
            self.cancels,
            self.cut_answers,
            self.resets,
            self.left,
            self.closed,
            self.opened,
            self.cleaned,
            self.parted,
            self.rested,
            self.brought,
            self.lost,
            self.broken,
        ] {
            least = least.min(count);
        }
        least
    }
}

pub(crate) fn raise(count: &mut u64) {
    *count = count.saturating_add(1);
}
