//! The table of connections without a socket: who is lent what, what is refused, and what drains. The bytes stand in
//! docs/PROTOCOL.md.

use mouktelf::{Agreed, Asked, Cancelled, Fault, MessageKind, Request, Rest, Service, State, Taken, Walk, Walked, Whose};

const BEGUN: &str = "0401002300000100E30B000808010000000000000000FD000000000000000000000000";
const ENDED: &str = "0401001500000200FD000000000000000000000000";
const RESET: &str = "0401001B00000100E30300120000FD000000000000000000000000";
const ACKNOWLEDGED: &str = "0401001500000100FD200000000000000000000000";
const ATTENTION: [u8; 8] = [6, 1, 0, 8, 0, 0, 1, 0];

fn bytes(digits: &str) -> Vec<u8> {
    (0..digits.len() / 2).map(|at| u8::from_str_radix(&digits[2 * at..2 * at + 2], 16).unwrap()).collect()
}

/// A request goes out; the status of its packet, which has bit 8 (hexadecimal) where it asks for a full reset.
fn ask(service: &mut Service, lease: u64, request: Request<'_>) -> Result<u8, Fault> {
    let (mut client, mut out) = (service.client(lease)?, Vec::new());
    client.start(request)?;
    while client.send(&mut out)? {}
    Ok(out[1])
}

const GET: Request<'_> = Request::Batch("get a");

fn take(service: &mut Service, number: u64, packet: &str) -> Result<Taken, Fault> {
    service.hear(number, &bytes(packet), &mut Vec::new()).map(|it| it.0)
}

/// Ends a lease, and what is to be sent for that.
fn gives_back(service: &mut Service, lease: u64) -> Result<(u64, Rest, Vec<u8>), Fault> {
    let mut out = Vec::new();
    let (number, rest) = service.give_back(lease, &mut out)?;
    Ok((number, rest, out))
}

#[test]
fn one_lease_each() {
    let mut service = Service::new(2, 512).unwrap();
    let (first, second) = (service.lease().unwrap(), service.lease().unwrap());
    assert_eq!((first.number, first.had, second.number, second.had), (1, false, 2, false));
    assert_ne!(first.lease, second.lease);
    assert_eq!((service.count(), service.holder(1), service.holder(2)), (2, Ok(Some(first.lease)), Ok(Some(second.lease))));
    assert_eq!(service.lease(), Err(Fault::AllInUse));
    assert_eq!(gives_back(&mut service, second.lease), Ok((2, Rest::Free, vec![])));
    let again = service.lease().unwrap();
    assert_eq!((again.number, again.had), (2, true));
    assert!(again.lease != first.lease && again.lease != second.lease);
    assert_eq!(service.lease(), Err(Fault::AllInUse));
}

#[test]
fn stale_leases() {
    let mut service = Service::new(1, 512).unwrap();
    let spent = service.lease().unwrap().lease;
    service.client(spent).unwrap().start(GET).unwrap();
    // What hasn't gone out isn't cancelled at the server.
    assert_eq!(gives_back(&mut service, spent), Ok((1, Rest::Free, vec![])));
    let lease = service.lease().unwrap().lease;
    assert_eq!(ask(&mut service, lease, GET), Ok(9));
    // Somebody else has the connection.
    assert_eq!(service.client(spent).err(), Some(Fault::NoSuch));
    assert_eq!(gives_back(&mut service, spent), Err(Fault::NoSuch));
    assert_eq!(service.keep(spent), Err(Fault::NoSuch));
    assert_eq!(service.cleaned(spent), Err(Fault::NoSuch));
    assert_eq!(service.resume(spent), Err(Fault::NoSuch));
    assert_eq!(service.abandon(spent), Err(Fault::NoSuch));
    assert_eq!(service.client(lease).unwrap().state(), State::Reading);
}

/// A request is cancelled at the end of its lease: its connection isn't lent before the acknowledgement.
#[test]
fn drains() {
    let mut service = Service::new(1, 512).unwrap();
    let lease = service.lease().unwrap().lease;
    assert_eq!(ask(&mut service, lease, GET), Ok(1));
    assert_eq!(service.drained(1), Err(Fault::NotNow));
    assert_eq!(gives_back(&mut service, lease), Ok((1, Rest::Draining, ATTENTION.to_vec())));
    assert_eq!((service.holder(1), service.lease()), (Ok(None), Err(Fault::AllInUse)));
    // The answer's end crosses the cancel.
    assert_eq!(take(&mut service, 1, ENDED), Ok(Taken::More));
    assert_eq!((service.drained(1), service.lease()), (Ok(Rest::Draining), Err(Fault::AllInUse)));
    assert_eq!(service.clean(1), Err(Fault::NotNow));
    assert_eq!(take(&mut service, 1, ACKNOWLEDGED), Ok(Taken::Acknowledged));
    assert_eq!(service.drained(1), Err(Fault::NotNow));
    let lent = service.lease().unwrap();
    assert_eq!((lent.number, lent.had, ask(&mut service, lent.lease, GET)), (1, true, Ok(9)));
    assert_eq!(take(&mut service, 1, RESET), Ok(Taken::Finished));
}

#[test]
fn kept() {
    let mut service = Service::new(1, 512).unwrap();
    let lease = service.lease().unwrap().lease;
    assert_eq!(service.keep(lease), Err(Fault::NotNow));
    ask(&mut service, lease, Request::Begin(0)).unwrap();
    take(&mut service, 1, BEGUN).unwrap();
    let ticket = service.keep(lease).unwrap();
    assert_eq!(service.client(lease).err(), Some(Fault::NoSuch));
    assert_eq!((service.holder(1), service.lease()), (Ok(Some(ticket)), Err(Fault::AllInUse)));
    let lent = service.resume(ticket).unwrap();
    assert_eq!((lent.number, lent.had, service.client(lent.lease).unwrap().descriptor()), (1, true, 1));
    assert_eq!(service.resume(ticket), Err(Fault::NoSuch));
    // It goes on with its transaction: a reset that keeps that is asked for (bit 10).
    assert_eq!(ask(&mut service, lent.lease, GET), Ok(0x11));
    take(&mut service, 1, RESET).unwrap();
    let ticket = service.keep(lent.lease).unwrap();
    assert_eq!(service.abandon(ticket), Ok((1, Rest::Free)));
    assert_eq!(service.abandon(ticket), Err(Fault::NoSuch));
}

#[test]
fn cleaned() {
    for (answer, rest, count) in [(RESET, Rest::Free, 1), (ENDED, Rest::Closed, 0)] {
        let mut service = Service::new(1, 512).unwrap();
        assert_eq!(service.clean(1), Err(Fault::NoSuch));
        let lease = service.lease().unwrap().lease;
        assert_eq!(service.clean(1), Err(Fault::NotNow));
        gives_back(&mut service, lease).unwrap();
        let lent = service.clean(1).unwrap();
        assert_eq!(service.lease(), Err(Fault::AllInUse));
        assert_eq!(ask(&mut service, lent.lease, GET), Ok(9));
        assert_eq!(service.cleaned(lent.lease), Err(Fault::NotNow));
        let taken = if answer == RESET { Ok(Taken::Finished) } else { Err(Fault::Peer(16)) };
        assert_eq!(take(&mut service, 1, answer), taken);
        assert_eq!((service.cleaned(lent.lease), service.count()), (Ok((1, rest)), count));
    }
}

/// Of three connections the first goes. The seats of the others move; their leases and requests are as they were.
#[test]
fn lost() {
    let mut service = Service::new(3, 512).unwrap();
    let leases: Vec<u64> = (0..3).map(|_| service.lease().unwrap().lease).collect();
    for it in &leases {
        ask(&mut service, *it, GET).unwrap();
    }
    service.lost(1).unwrap();
    assert_eq!(service.client(leases[0]).err(), Some(Fault::NoSuch));
    assert_eq!(service.connection(1).err(), Some(Fault::NoSuch));
    assert_eq!((service.lost(1), service.count()), (Err(Fault::NoSuch), 2));
    let mut out = Vec::new();
    assert_eq!(service.client(leases[2]).unwrap().cancel(&mut out), Ok(Cancelled::Asked));
    assert_eq!(out, ATTENTION);
    assert_eq!(service.client(leases[1]).unwrap().state(), State::Reading);
    assert_eq!((take(&mut service, 2, ENDED), take(&mut service, 3, ENDED)), (Ok(Taken::Finished), Ok(Taken::More)));
    assert_eq!(service.lease().unwrap().number, 4);
}

/// What waits of a message in parts is there at the next call; the headers have 22 bytes.
#[test]
fn streamed() {
    let (mut service, mut out) = (Service::new(1, 512).unwrap(), Vec::new());
    let lease = service.lease().unwrap().lease;
    service.client(lease).unwrap().start_message(MessageKind::Batch).unwrap();
    for part in [b"g\0e\0t\0", b" \0a\0\0\0"] {
        service.client(lease).unwrap().put(part, &mut out).unwrap();
    }
    assert!(out.is_empty());
    service.client(lease).unwrap().finish(&mut out).unwrap();
    assert_eq!((out.len(), &out[30..]), (42, b"g\0e\0t\0 \0a\0\0\0".as_slice()));
}

fn tokens(walk: &mut Walk, packet: &str) -> Vec<Walked> {
    let data = bytes(packet);
    let (count, token) = walk.next(&data[8..]).unwrap();
    assert_eq!(count, data.len() - 8);
    token.into_iter().collect()
}

/// By lease and number alone: two requests, of which the second is cancelled, and nobody is told of its answer.
#[test]
fn asks() {
    let (mut service, mut walk, mut out) = (Service::new(1, 512).unwrap(), Walk::new(16, Agreed::default()), Vec::new());
    let lease = service.lease().unwrap().lease;
    assert_eq!(service.ask(lease, MessageKind::Batch), Ok(Asked { number: 1, request: 1 }));
    service.put(lease, b"g\0e\0t\0 \0a\0", &mut out).unwrap();
    assert!(out.is_empty());
    service.finish(lease, &mut out).unwrap();
    assert_eq!((&out[..2], &out[30..]), ([1, 1].as_slice(), b"g\0e\0t\0 \0a\0".as_slice()));
    let done = tokens(&mut walk, ENDED)[0];
    let first = Whose { lease: Some(lease), request: 1, is_told: true };
    assert_eq!((service.came(1, &done), service.message_ended(1, false)), (Ok(first), Ok((Taken::Finished, first))));
    assert_eq!(service.ask_batch(lease, "get b", &mut out), Ok(Asked { number: 1, request: 2 }));
    out.clear();
    assert_eq!(service.cancel(lease, &mut out), Ok(Cancelled::Asked));
    assert_eq!(out, ATTENTION);
    assert_eq!(service.cancel(lease, &mut out), Ok(Cancelled::Already));
    assert_eq!(service.came(1, &done), Ok(Whose { lease: Some(lease), request: 2, is_told: false }));
    assert_eq!(service.message_ended(1, false).map(|it| it.0), Ok(Taken::More));
    assert_eq!(gives_back(&mut service, lease), Ok((1, Rest::Draining, vec![])));
    assert_eq!(service.ask(lease, MessageKind::Batch), Err(Fault::NoSuch));
    assert_eq!(service.put(lease, b"a", &mut out), Err(Fault::NoSuch));
    assert_eq!(service.finish(lease, &mut out), Err(Fault::NoSuch));
    assert_eq!(service.cancel(lease, &mut out), Err(Fault::NoSuch));
    assert_eq!(service.ask_batch(lease, "a", &mut out), Err(Fault::NoSuch));
    walk.restart();
    let nobody = Whose { lease: None, request: 2, is_told: false };
    assert_eq!(service.came(1, &tokens(&mut walk, ACKNOWLEDGED)[0]), Ok(nobody));
    assert_eq!(service.lease(), Err(Fault::AllInUse));
    assert_eq!(service.message_ended(1, false), Ok((Taken::Acknowledged, nobody)));
    // It has drained: the next lease's first request asks for a reset, and is the third of its connection.
    let lease = service.lease().unwrap().lease;
    out.clear();
    assert_eq!(service.ask_batch(lease, "get a", &mut out), Ok(Asked { number: 1, request: 3 }));
    assert_eq!(out[1], 9);
    // A message that ends inside a token breaks the connection.
    assert_eq!(service.message_ended(1, true), Err(Fault::Peer(15)));
    assert!(matches!(service.client(lease).unwrap().state(), State::Broken(_)));
}

/// By number: whose a packet's tokens are, and that nobody is told of what drains.
#[test]
fn hears() {
    let (mut service, mut told, mut out) = (Service::new(1, 512).unwrap(), Vec::new(), Vec::new());
    let lease = service.lease().unwrap().lease;
    service.ask_batch(lease, "get a", &mut out).unwrap();
    let first = Whose { lease: Some(lease), request: 1, is_told: true };
    assert_eq!(service.hear(1, &bytes(ENDED), &mut told), Ok((Taken::Finished, first)));
    assert_eq!(told, tokens(&mut Walk::default(), ENDED));
    service.ask_batch(lease, "get b", &mut out).unwrap();
    assert_eq!(service.follow(1, &bytes(ENDED)), Ok((Taken::Finished, Whose { request: 2, ..first })));
    service.ask_batch(lease, "get c", &mut out).unwrap();
    assert_eq!(gives_back(&mut service, lease), Ok((1, Rest::Draining, ATTENTION.to_vec())));
    let nobody = Whose { lease: None, request: 3, is_told: false };
    assert_eq!(service.hear(1, &bytes(ACKNOWLEDGED), &mut told), Ok((Taken::Acknowledged, nobody)));
    assert_eq!((told.len(), service.lease().map(|it| it.had)), (1, Ok(true)));
    assert_eq!(service.hear(2, &bytes(ENDED), &mut told), Err(Fault::NoSuch));
    assert_eq!(service.hear(1, &[], &mut told), Err(Fault::NoPacket));
}

/// The login agrees on other packets than were asked for: the connection's client is one of that size, and no other's is.
#[test]
fn logged_in() {
    let (mut service, text) = (Service::new(2, 4096).unwrap(), "a".repeat(1000));
    let leases = [service.lease().unwrap().lease, service.lease().unwrap().lease];
    service.logged_in(1, 512, None).unwrap();
    let sizes = leases.map(|lease| {
        let mut out = Vec::new();
        service.ask_batch(lease, &text, &mut out).unwrap();
        out.len()
    });
    assert_eq!(sizes, [2022 + 8 * 5, 2022 + 8]);
    assert_eq!((service.logged_in(1, 4096, None), service.logged_in(3, 4096, None)), (Err(Fault::NotNow), Err(Fault::NoSuch)));
    for size in [0, 511, 32768, 65535] {
        let mut service = Service::new(1, 512).unwrap();
        service.lease().unwrap();
        assert_eq!(service.logged_in(1, size, None), Err(Fault::OutOfRange));
    }
}

#[test]
fn refused() {
    for size in [0, 511, 32768, 65535] {
        assert_eq!(Service::new(1, size).err(), Some(Fault::OutOfRange));
    }
    assert_eq!(Service::new(0, 512).unwrap().lease(), Err(Fault::AllInUse));
    for number in [0, 1, u64::MAX] {
        let mut service = Service::new(1, 512).unwrap();
        assert_eq!(gives_back(&mut service, number), Err(Fault::NoSuch));
        assert_eq!((service.drained(number), service.lost(number)), (Err(Fault::NoSuch), Err(Fault::NoSuch)));
    }
}
