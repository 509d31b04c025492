//! The carrier over TCP by its calls, on this machine. What is printed by runs over sockets is tried by
//! `tests/loopback`.

use crate::refusals::tried::Fault;
use std::alloc::Global;
use std::fmt::Write;
use std::net::{Net, OpenListener, SocketAddr, TcpListener, TcpStream};
use std::time::Duration;
use std::{fs, io};
use tds_packet::Direction;
use tds_play::{Carrier, CarrierError, run_play};
use tds_tcp::TcpCarrier;

/// Tries each, and appends a line for it.
pub fn put(rt: &HostRuntime, text: &mut String) -> Result<(), Fault> {
    put_echoes(rt, text)?;
    for times in [8192, 8193] {
        let is_held = drip(&mut TcpCarrier::listen(rt.alloc(), rt)?, times).is_ok();
        writeln!(text, "{times} single bytes in a direction: {is_held}")?;
    }
    put_open_files(rt, text)?;
    put_strangers(rt, text)?;
    put_two(rt, text)
}

impl From<CarrierError> for Fault {
    fn from(error: CarrierError) -> Fault {
        match error {
            CarrierError::Memory => Fault::Memory,
            CarrierError::Lost => Fault::Wrong,
        }
    }
}

/// What of these bytes comes out again, over a connection that is opened and cut for them.
fn echo<R: Net + Drop>(
    alloc: Global,
    carrier: &mut TcpCarrier<R, R::Listener, R::Stream>,
    direction: Direction,
    bytes: &[u8],
) -> Result<Vec<u8>, CarrierError> {
    let mut out = Vec::new(alloc);
    carrier.open(1)?;
    if bytes.is_empty() {
        return Ok(out);
    }
    carrier.send(1, direction, bytes)?;
    carrier.carry(1, direction, bytes.len(), &mut out)?;
    carrier.cut(1);
    Ok(out)
}

fn put_echoes(rt: &HostRuntime, text: &mut String) -> Result<(), Fault> {
    let alloc = rt.alloc();
    let mut carrier = TcpCarrier::listen(alloc, rt)?;
    for bytes in [b"a".as_slice(), b"some bytes", &[0x5A; 8192], &[0x5A; 8193]] {
        for direction in [Direction::ToServer, Direction::ToClient] {
            let is_same = match echo(alloc, &mut carrier, direction, bytes) {
                Ok(out) => out.as_slice() == bytes,
                Err(_) => false,
            };
            writeln!(text, "{} bytes come out again: {is_same}", bytes.len())?;
        }
    }
    writeln!(text, "connections accepted: {}", carrier.accepted())?;
    Ok(())
}

/// Hands a byte over, and no other, so many times: whether all went.
fn drip<R: Net + Drop>(
    carrier: &mut TcpCarrier<R, R::Listener, R::Stream>,
    times: u32,
) -> Result<(), CarrierError> {
    carrier.open(1)?;
    'times: for _ in 0..times {
        carrier.send(1, Direction::ToServer, b"a")?;
    }
    Ok(())
}

/// How many files and sockets this process has open.
fn open_files(rt: &HostRuntime) -> io::Result<usize> {
    let mut count = 0usize;
    for entry in fs::read_dir(rt, "/proc/self/fd")? {
        let _ = entry?;
        count = count.saturating_add(1);
    }
    Ok(count)
}

/// Opens these connections: whether all could be.
fn open_all<R: Net + Drop>(
    carrier: &mut TcpCarrier<R, R::Listener, R::Stream>,
    count: u32,
) -> bool {
    let mut is_well = true;
    'open: for conn in 1..=count {
        is_well &= carrier.open(conn).is_ok();
    }
    is_well
}

/// Opens this connection again and again, and cuts it each time.
fn open_and_cut<R: Net + Drop>(
    carrier: &mut TcpCarrier<R, R::Listener, R::Stream>,
    times: u32,
) -> bool {
    let mut is_well = true;
    'times: for conn in 1..=times {
        match carrier.open(conn) {
            Ok(()) => carrier.cut(conn),
            Err(_) => is_well = false,
        }
    }
    is_well
}

/// No socket stays open: behind the cuts, with 64 connections open, and behind the carrier.
fn put_open_files(rt: &HostRuntime, text: &mut String) -> Result<(), Fault> {
    let before = open_files(rt)?;
    let mut carrier = TcpCarrier::listen(rt.alloc(), rt)?;
    let listening = open_files(rt)?;
    let is_cut = open_and_cut(&mut carrier, 1000);
    let left = open_files(rt)?.saturating_sub(listening);
    writeln!(
        text,
        "1000 connections are opened and cut: {is_cut}, {left} files are left"
    )?;
    let is_open = open_all(&mut carrier, 64);
    let open = open_files(rt)?.saturating_sub(listening);
    writeln!(text, "64 connections are open: {is_open}, {open} files")?;
    writeln!(text, "connections accepted: {}", carrier.accepted())?;
    drop(carrier);
    let left = open_files(rt)?.saturating_sub(before);
    writeln!(text, "behind the carrier: {left} files are left")?;
    Ok(())
}

/// A system on which somebody connects to each listener as soon as it is there, and leaves.
#[derive(Drop)]
struct Crowded<'a> {
    rt: &'a HostRuntime,
}

impl Net for Crowded<'_> {
    type Stream = TcpStream;

    type Listener = TcpListener;

    fn bind(&self, address: SocketAddr) -> io::Result<TcpListener> {
        let listener = self.rt.bind(address)?;
        for _ in 0..3 {
            let _ = self.rt.connect(listener.local_addr()?)?;
        }
        Ok(listener)
    }

    fn connect(&self, address: SocketAddr) -> io::Result<TcpStream> {
        self.rt.connect(address)
    }

    fn connect_timeout(&self, address: SocketAddr, patience: Duration) -> io::Result<TcpStream> {
        self.rt.connect_timeout(address, patience)
    }
}

/// Strangers are let go, and the bytes are those of the connection's own end.
fn put_strangers(rt: &HostRuntime, text: &mut String) -> Result<(), Fault> {
    let mut carrier = TcpCarrier::listen(rt.alloc(), Crowded { rt })?;
    let out = echo(rt.alloc(), &mut carrier, Direction::ToServer, b"a")?;
    let is_same = out.as_slice() == b"a".as_slice();
    writeln!(
        text,
        "behind three strangers a byte comes out again: {is_same}"
    )?;
    writeln!(text, "connections accepted: {}", carrier.accepted())?;
    Ok(())
}

/// A begin is answered, while another lease waits.
const SCHEDULE: &[u8] = br#"{"version":1,"packet_size":512,"max":2,"events":
    [["lease"],["begin",1,0],["lease"],["send",1],["to_server",1,34],["work",1],["to_client",1,35]]}"#;

const TEXT: &[u8] =
    b"1 leased 1 on 1 new\n2 asked 1\n3 leased 2 on 2 new\n4 sent last\n5 to server 34\n\
    6 work finished\n7 to client 35\nrequest 1 lease 1 on 1 finished ran 0 -\n  done 0000 0\n\
    connection 1 idle leased 1 descriptor 1 mark none server 1 - underway 0 0\n\
    connection 2 idle leased 2 descriptor 0 mark none server 0 - underway 0 0\n";

fn is_printed<C: Carrier>(alloc: Global, carrier: &mut C) -> bool {
    let mut output = Vec::new(alloc);
    let mut errors = Vec::new(alloc);
    let mut reader = SCHEDULE;
    let status = run_play(alloc, &mut reader, carrier, &mut output, &mut errors);
    status == 0 && errors.is_empty() && output.as_slice() == TEXT
}

/// Two carriers do not meet: the connections of the first play stay open during the second, and the
/// third begins anew.
fn put_two(rt: &HostRuntime, text: &mut String) -> Result<(), Fault> {
    let mut first = TcpCarrier::listen(rt.alloc(), rt)?;
    let mut second = TcpCarrier::listen(rt.alloc(), rt)?;
    for _ in 0..2 {
        let is_first = is_printed(rt.alloc(), &mut first);
        let is_second = is_printed(rt.alloc(), &mut second);
        writeln!(text, "two carriers play: {is_first}, {is_second}")?;
    }
    let accepted = (first.accepted(), second.accepted());
    writeln!(text, "connections accepted: {accepted:?}")?;
    Ok(())
}
