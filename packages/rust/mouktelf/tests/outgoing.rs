//! The order of bytes: a request's packets, then its cancel's attention, also where the write of the first stalls and the cancel comes
//! from another thread; and that the wrong way, each call under a lock and the writes not, is seen, and what it does.

use mouktelf::{Cancelled, Client, Fault, Outgoing, Request, Taken, Told};
use std::io::{self, Write};
use std::sync::mpsc::{channel, Receiver, Sender};
use std::sync::{Arc, Mutex};
use std::thread;

/// A socket whose first write stalls until it may go on; it keeps the bytes in the order in which they went.
struct Slow {
    bytes: Arc<Mutex<Vec<u8>>>,
    begun: Sender<()>,
    may: Option<Receiver<()>>,
}

impl Write for Slow {
    fn write(&mut self, data: &[u8]) -> io::Result<usize> {
        if let Some(may) = self.may.take() {
            self.begun.send(()).unwrap();
            may.recv().unwrap();
        }
        self.bytes.lock().unwrap().extend_from_slice(data);
        Ok(data.len())
    }

    fn flush(&mut self) -> io::Result<()> {
        Ok(())
    }
}

fn slow() -> (Slow, Arc<Mutex<Vec<u8>>>, Receiver<()>, Sender<()>) {
    let (bytes, (begun, has_begun), (may, can)) = (Arc::default(), channel(), channel());
    (Slow { bytes: Arc::clone(&bytes), begun, may: Some(can) }, bytes, has_begun, may)
}

fn packets(mut wire: &[u8]) -> Vec<&[u8]> {
    let mut found = Vec::new();
    while !wire.is_empty() {
        let (packet, rest) = wire.split_at(usize::from(wire[2]) << 8 | usize::from(wire[3]));
        found.push(packet);
        wire = rest;
    }
    found
}

fn kinds(wire: &[u8]) -> Vec<u8> {
    packets(wire).iter().map(|it| it[0]).collect()
}

fn packet(data: &[u8]) -> Vec<u8> {
    [&[4, 1, 0, 8 + data.len() as u8, 0, 0, 1, 0], data].concat()
}

/// What a server gives for these bytes: to a request an INFO with its last letter and the last DONE, to an attention its
/// acknowledgement. A request that is cancelled before it is answered isn't answered.
fn answers(wire: &[u8]) -> Vec<Vec<u8>> {
    let (mut gives, mut is_answer): (Vec<Vec<u8>>, bool) = (Vec::new(), false);
    for it in packets(wire) {
        if it[0] == 6 {
            if is_answer {
                gives.pop();
            }
            gives.push(packet(&[0xFD, 0x20, 0, 0, 0, 0, 0, 0, 0, 0, 0, 0, 0]));
            is_answer = false;
        } else if it[1] & 1 == 1 {
            let said = [&[0xAB, 16, 0, 1, 0, 0, 0, 1, 1, 1, 0], &it[it.len() - 2..], &[0; 6], &[0xFD][..], &[0; 12]].concat();
            gives.push(packet(&said));
            is_answer = true;
        }
    }
    gives
}

fn ask(client: &mut Client, text: &str, out: &mut Vec<u8>) -> Result<(), Fault> {
    client.start(Request::Batch(text))?;
    while client.send(out)? {}
    Ok(())
}

/// Hears one message: which request's answer is told, and the end.
fn hear(client: &mut Client, packet: &[u8]) -> (String, Taken) {
    let mut told = Vec::new();
    let taken = client.hear(packet, &mut told).unwrap();
    let letters = told.iter().filter_map(|it| match it.told {
        Told::Message { text, .. } => Some(char::from(packet[8 + text.start as usize])),
        _ => None,
    });
    (letters.collect(), taken)
}

#[test]
fn right_way() {
    let (socket, bytes, begun, may) = slow();
    let (client, outgoing, text) = (Mutex::new(Client::new(512).unwrap()), Outgoing::new(socket), "a".repeat(1999) + "A");
    thread::scope(|scope| {
        let first = scope.spawn(|| outgoing.call(&client, |client, out| ask(client, &text, out)).unwrap());
        begun.recv().unwrap();
        // The cancel doesn't wait behind the write, which stalls all the while.
        assert_eq!(outgoing.call(&client, |client, out| client.cancel(out)).unwrap(), Ok(Cancelled::Asked));
        assert!(!first.is_finished() && bytes.lock().unwrap().is_empty());
        may.send(()).unwrap();
        assert_eq!(first.join().unwrap(), Ok(()));
    });
    let sent = bytes.lock().unwrap().clone();
    assert_eq!(kinds(&sent), [1, 1, 1, 1, 1, 1, 1, 1, 6]);
    let gives = answers(&sent);
    assert_eq!(gives.len(), 1);
    assert_eq!(hear(&mut client.lock().unwrap(), &gives[0]), (String::new(), Taken::Acknowledged));
    outgoing.call(&client, |client, out| ask(client, "B", out)).unwrap().unwrap();
    let gives = answers(&bytes.lock().unwrap()[sent.len()..]);
    assert_eq!(hear(&mut client.lock().unwrap(), &gives[0]), ("B".into(), Taken::Finished));
}

/// The attention is first, and the next request is told the cancelled one's answer, with no error.
#[test]
fn wrong_way() {
    let (mut socket, bytes, begun, may) = slow();
    let (client, text, mut wire) = (Mutex::new(Client::new(512).unwrap()), "a".repeat(1999) + "A", Vec::new());
    thread::scope(|scope| {
        let first = scope.spawn(|| {
            let mut out = Vec::new();
            ask(&mut client.lock().unwrap(), &text, &mut out).unwrap();
            socket.write_all(&out).unwrap();
        });
        begun.recv().unwrap();
        assert_eq!(client.lock().unwrap().cancel(&mut wire), Ok(Cancelled::Asked));
        may.send(()).unwrap();
        first.join().unwrap();
    });
    wire.extend_from_slice(&bytes.lock().unwrap());
    assert_eq!(kinds(&wire), [6, 1, 1, 1, 1, 1, 1, 1, 1], "the wrong way isn't seen");
    let (gives, client) = (answers(&wire), &mut client.lock().unwrap());
    assert_eq!(gives.len(), 2);
    assert_eq!(hear(client, &gives[0]), (String::new(), Taken::Acknowledged));
    ask(client, "B", &mut Vec::new()).unwrap();
    assert_eq!(hear(client, &gives[1]), ("A".into(), Taken::Finished));
}

struct Yields(Arc<Mutex<Vec<u8>>>);

impl Write for Yields {
    fn write(&mut self, data: &[u8]) -> io::Result<usize> {
        thread::yield_now();
        self.0.lock().unwrap().extend_from_slice(data);
        Ok(data.len())
    }

    fn flush(&mut self) -> io::Result<()> {
        Ok(())
    }
}

/// Eight threads append 200 numbers each; a writer that yields keeps the order of the lock.
#[test]
fn many() {
    let (bytes, order) = (Arc::default(), Mutex::new(Vec::new()));
    let outgoing = Outgoing::new(Yields(Arc::clone(&bytes)));
    let (outgoing, order) = (&outgoing, &order);
    thread::scope(|scope| {
        for it in 0..8 {
            scope.spawn(move || {
                for k in 0..200 {
                    let both = |order: &mut Vec<u8>, out: &mut Vec<u8>| [order, out].map(|to| to.extend([it, k]));
                    outgoing.call(order, both).unwrap();
                }
            });
        }
    });
    let (order, bytes) = (order.lock().unwrap(), bytes.lock().unwrap());
    assert_eq!((order.len(), &order[..]), (3200, &bytes[..]));
}

struct Fails;

impl Write for Fails {
    fn write(&mut self, _: &[u8]) -> io::Result<usize> {
        Err(io::ErrorKind::ConnectionReset.into())
    }

    fn flush(&mut self) -> io::Result<()> {
        Ok(())
    }
}

/// A write that fails is told to whoever writes, and to each later call.
#[test]
fn fails() {
    let (outgoing, shared) = (Outgoing::new(Fails), Mutex::new(()));
    for data in [&b"a"[..], b"b", b""] {
        let told = outgoing.call(&shared, |(), out| out.extend_from_slice(data));
        assert_eq!(told.map_err(|it| it.kind()), Err(io::ErrorKind::ConnectionReset));
    }
}
