//! Reports of values that no play comes to, as they are written; schedules as they are read; and known
//! packets that are changed. The texts stand in `stdout`.

use crate::refusals::tried::Fault;
use std::alloc::{AllocError, Global};
use std::fmt::Write as _;
use std::fs;
use std::io::{self, Write};
use tds_packet::Reset;
use tds_play::{read_schedule, render};
use tds_session::Session;
use tds_show::{VECTORS, Vector, run_vectors_among};
use tds_token::{Column, ColumnList, EnvChange, Message, Row, Text, Token};
use tds_world::{
    AbandonOutcome, CancelOutcome, ClientView, End, EventReport, GiveBackOutcome, Layer, Opened,
    Outcome, Place, Refusal, Report, RequestReport, RequestStatus, SendOutcome, Sequence, Snapshot,
    WorkOutcome,
};

/// Appends each text below its name.
pub fn put(rt: &HostRuntime, out: &mut String) -> Result<(), Fault> {
    let alloc = rt.alloc();
    put_report(alloc, "no event", &report_of(alloc, &[])?, out)?;
    put_report(alloc, "each outcome", &report_of(alloc, &OUTCOMES)?, out)?;
    put_report(
        alloc,
        "each token",
        &report_with(alloc, tokens(alloc)?)?,
        out,
    )?;
    put_report(
        alloc,
        "connections of the last event",
        &report_standing(alloc)?,
        out,
    )?;
    put_report(alloc, "each status", &report_of_requests(alloc)?, out)?;
    put_slow(alloc, 0, out)?;
    put_slow(alloc, 3, out)?;
    for digits in CHANGED {
        put_changed(alloc, digits, out)?;
    }
    for file in ["version_1.json", "version_2.json", "spaced.json"] {
        put_events(rt, file, out)?;
    }
    Ok(())
}

fn text(alloc: Global, units: &[u16]) -> Result<Text, AllocError> {
    Ok(Text::new(units.to_vec(alloc)?))
}

fn message(alloc: Global, number: i32, units: &[u16]) -> Result<Message, AllocError> {
    Ok(Message {
        number,
        state: 1,
        class: 0,
        text: text(alloc, units)?,
        server: text(alloc, &[])?,
        procedure: text(alloc, &[])?,
        line: 0,
    })
}

fn column(alloc: Global, name: &[u16]) -> Result<Column, AllocError> {
    Ok(Column {
        user_type: 0,
        flags: 0,
        name: text(alloc, name)?,
    })
}

/// An event after which no connection is there.
fn plain(alloc: Global, outcome: Outcome) -> EventReport {
    EventReport {
        outcome,
        lost: false,
        snapshots: Sequence::new(Vec::new(alloc)),
    }
}

/// A report of events alone, none of them lost.
fn report_of(alloc: Global, outcomes: &[Outcome]) -> Result<Report, AllocError> {
    let mut events = Vec::new(alloc);
    for outcome in outcomes {
        events.push(plain(alloc, *outcome))?;
    }
    Ok(Report {
        events: Sequence::new(events),
        requests: Sequence::new(Vec::new(alloc)),
    })
}

/// A report of one request, with these tokens.
fn report_with(alloc: Global, tokens: Vec<Token>) -> Result<Report, AllocError> {
    let mut requests = Vec::new(alloc);
    requests.push(RequestReport {
        lease: 2,
        conn: 3,
        status: RequestStatus::Open,
        ran: Some(Session::new()),
        tokens: Sequence::new(tokens),
    })?;
    Ok(Report {
        events: Sequence::new(Vec::new(alloc)),
        requests: Sequence::new(requests),
    })
}

/// Appends what a report is written as, below its name.
fn put_report(alloc: Global, name: &str, report: &Report, out: &mut String) -> Result<(), Fault> {
    let mut bytes = Vec::new(alloc);
    match render(alloc, report, &mut bytes) {
        Ok(()) => put_text(name, bytes.as_slice(), out),
        Err(_) => Err(Fault::Wrong),
    }
}

/// Appends an ASCII text below its name.
fn put_text(name: &str, text: &[u8], out: &mut String) -> Result<(), Fault> {
    writeln!(out, "= {name}")?;
    for byte in text {
        out.push(char::from(*byte))?;
    }
    Ok(())
}

/// Each outcome.
const OUTCOMES: [Outcome; 28] = [
    Outcome::Leased {
        lease: 1,
        conn: 1,
        opened: Opened::New,
    },
    Outcome::Leased {
        lease: 2,
        conn: 1,
        opened: Opened::Reused,
    },
    Outcome::Leased {
        lease: 4294967295,
        conn: 12,
        opened: Opened::Resumed,
    },
    Outcome::GivenBack(GiveBackOutcome::Free),
    Outcome::GivenBack(GiveBackOutcome::Draining),
    Outcome::GivenBack(GiveBackOutcome::Closed),
    Outcome::Kept(1),
    Outcome::Abandoned(AbandonOutcome::Free),
    Outcome::Abandoned(AbandonOutcome::Closed),
    Outcome::Asked(10),
    Outcome::Sent(SendOutcome::More),
    Outcome::Sent(SendOutcome::Last),
    Outcome::Cancel(CancelOutcome::Nothing),
    Outcome::Cancel(CancelOutcome::Already),
    Outcome::Cancel(CancelOutcome::Unsent),
    Outcome::Cancel(CancelOutcome::Asked),
    Outcome::Work(WorkOutcome::Idle),
    Outcome::Work(WorkOutcome::Step),
    Outcome::Work(WorkOutcome::Finished),
    Outcome::ToServer(34),
    Outcome::ToClient(0),
    Outcome::Cut,
    Outcome::RestartedServer,
    Outcome::RestartedClient,
    Outcome::Refused(Refusal::ConnectionCut),
    Outcome::Fault {
        end: End::Server,
        layer: Layer::Packet,
        number: 3,
    },
    Outcome::Fault {
        end: End::Client,
        layer: Layer::Core,
        number: 10,
    },
    Outcome::Cleaning {
        lease: 2,
        request: 10,
    },
];

/// Space, tilde, a backslash, the units around the plain ones, and half of a pair.
const ODD: [u16; 7] = [0x20, 0x7E, 0x5C, 0x1F, 0x7F, 0xD83D, 0x0A];

/// Two columns.
fn columns(alloc: Global) -> Result<ColumnList, AllocError> {
    let mut columns = Vec::new(alloc);
    for name in [[0x6E].as_slice(), &[0x20, 0x5C]] {
        columns.push(column(alloc, name)?)?;
    }
    Ok(ColumnList::new(columns))
}

/// The tokens of the text below: the one at this place, if there is one.
fn token_at(alloc: Global, place: usize) -> Result<Option<Token>, AllocError> {
    Ok(Some(match place {
        0 => Token::Info(message(alloc, 50000, &ODD)?),
        1 => Token::Info(message(alloc, -1, &[])?),
        2 => Token::Error(message(alloc, 50001, &[0x78])?),
        3 => Token::ReturnStatus(-2147483648),
        4 => Token::Columns(columns(alloc)?),
        5 => Token::Row(Row::new([5, -6].to_vec(alloc)?)),
        6 => Token::Env(EnvChange::Begin(1)),
        7 => Token::Done {
            status: 0xABCD,
            cur_cmd: 9,
            rows: 18446744073709551615,
        },
        _ => return Ok(None),
    }))
}

/// A snapshot of a connection that has settings.
fn snapshot(conn: u32, client: ClientView, place: Place, mark: Option<Reset>) -> Snapshot {
    let mut server = Session::new();
    server.set(b'x', 7);
    server.set(b'y', -1);
    Snapshot {
        conn,
        client,
        place,
        descriptor: 3,
        mark,
        server,
        to_server: 8,
        to_client: 21,
    }
}

/// A connection, its client, its place and its mark.
type Standing = (u32, ClientView, Place, Option<Reset>);

/// What stood behind the event before the last, and behind the last.
const FIRST: [Standing; 1] = [(9, ClientView::Idle, Place::Free, None)];

const LAST: [Standing; 4] = [
    (1, ClientView::Idle, Place::Leased(4), None),
    (2, ClientView::Sending, Place::Kept(5), Some(Reset::Full)),
    (
        3,
        ClientView::Reading,
        Place::Free,
        Some(Reset::KeepTransaction),
    ),
    (4, ClientView::Cancelling, Place::Draining, None),
];

/// An event, and the connections after it.
fn followed(
    alloc: Global,
    outcome: Outcome,
    lost: bool,
    standing: &[Standing],
) -> Result<EventReport, AllocError> {
    let mut snapshots = Vec::new(alloc);
    for (conn, client, place, mark) in standing {
        snapshots.push(snapshot(*conn, *client, *place, *mark))?;
    }
    Ok(EventReport {
        outcome,
        lost,
        snapshots: Sequence::new(snapshots),
    })
}

/// A writer that takes one byte at a time, and fails at a call of its own choice.
#[derive(Drop)]
struct Slow {
    bytes: Vec<u8>,
    calls: u32,
    fails_at: u32,
}

impl Write for Slow {
    fn write(&mut self, buf: &[u8]) -> io::Result<usize> {
        self.calls = self.calls.wrapping_add(1);
        if self.calls == self.fails_at {
            return Err(io::Error::from(io::ErrorKind::Other));
        }
        match buf.first() {
            None => Ok(0),
            Some(byte) => match self.bytes.push(*byte) {
                Ok(()) => Ok(1),
                Err(_) => Err(io::Error::from(io::ErrorKind::OutOfMemory)),
            },
        }
    }

    fn flush(&mut self) -> io::Result<()> {
        Ok(())
    }
}

/// What a slow writer took, its calls, and the fault's number, or 0 for none.
fn put_slow(alloc: Global, fails_at: u32, out: &mut String) -> Result<(), Fault> {
    let report = report_of(alloc, &[Outcome::Cut, Outcome::Asked(1)])?;
    let mut slow = Slow {
        bytes: Vec::new(alloc),
        calls: 0,
        fails_at,
    };
    let number = match render(alloc, &report, &mut slow) {
        Ok(()) => 0,
        Err(fault) => fault.number(),
    };
    put_text("a slow writer", slow.bytes.as_slice(), out)?;
    writeln!(out, "({} calls, fault {number})", slow.calls)?;
    Ok(())
}

/// The tokens of one request.
fn tokens(alloc: Global) -> Result<Vec<Token>, AllocError> {
    let mut tokens = Vec::new(alloc);
    for place in 0..8 {
        if let Some(token) = token_at(alloc, place)? {
            tokens.push(token)?;
        }
    }
    Ok(tokens)
}

fn report_standing(alloc: Global) -> Result<Report, AllocError> {
    let mut events = Vec::new(alloc);
    events.push(followed(alloc, Outcome::Cut, false, &FIRST)?)?;
    let sent = Outcome::Sent(SendOutcome::More);
    events.push(followed(alloc, sent, true, &LAST)?)?;
    Ok(Report {
        events: Sequence::new(events),
        requests: Sequence::new(Vec::new(alloc)),
    })
}

fn report_of_requests(alloc: Global) -> Result<Report, AllocError> {
    let mut requests = Vec::new(alloc);
    for status in [
        RequestStatus::Open,
        RequestStatus::Cancelling,
        RequestStatus::Finished,
        RequestStatus::Acknowledged,
        RequestStatus::Unsent,
        RequestStatus::Lost,
    ] {
        requests.push(RequestReport {
            lease: 1,
            conn: 1,
            status,
            ran: None,
            tokens: Sequence::new(Vec::new(alloc)),
        })?;
    }
    Ok(Report {
        events: Sequence::new(Vec::new(alloc)),
        requests: Sequence::new(requests),
    })
}

/// Digits of a changed vector: no word, no byte, a byte too few and one too many; a header with a fault;
/// an attention that has data; a token and a request with a fault; and a packet that is right.
const CHANGED: [&str; 10] = [
    "0",
    "zz",
    "",
    "06010008000001",
    "060100080000010006",
    "0501000800000100",
    "060100090000010000",
    "0401000900000100FF",
    "0101000800000100",
    "0401000800000100",
];

/// Appends what is printed of a vector with these digits, behind one that is right.
fn put_changed(alloc: Global, digits: &str, out: &mut String) -> Result<(), Fault> {
    let wrong = Vector {
        name: "changed",
        meaning: "another packet",
        digits,
    };
    let mut output = Vec::new(alloc);
    let mut errors = Vec::new(alloc);
    let status = run_vectors_among(alloc, &[VECTORS[2], wrong], &mut output, &mut errors);
    put_text(digits, output.as_slice(), out)?;
    writeln!(out, "(status {status}, {} bytes of errors)", errors.len())?;
    Ok(())
}

/// Appends the packet size of a schedule, the most connections, and its events as `Debug` writes them.
fn put_events(rt: &HostRuntime, file: &str, out: &mut String) -> Result<(), Fault> {
    let bytes = fs::read(rt, file)?;
    let Ok((setup, events)) = read_schedule(rt.alloc(), bytes.as_slice()) else {
        return Err(Fault::Wrong);
    };
    writeln!(out, "= {file}\n{} {}", setup.packet_size, setup.max)?;
    for event in events.iter() {
        writeln!(out, "{event:?}")?;
    }
    Ok(())
}
