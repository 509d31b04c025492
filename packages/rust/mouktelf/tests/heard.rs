//! A packet in one call: what a walk finds and the client hears, also where that is more than goes into one.

use mouktelf::{Agreed, Client, Fault, Packets, Request, Reset, State, StrictClient, Taken, Walk, Walked};

const ENDED: &[u8] = &[0xFD, 0, 0, 0, 0, 0, 0, 0, 0, 0, 0, 0, 0];

fn asked() -> Client {
    let mut client = Client::new(512).expect("a size");
    client.start(Request::Batch("say a")).expect("it is idle");
    while client.send(&mut Vec::new()).expect("it sends") {}
    client
}

fn packet(data: &[u8]) -> Vec<u8> {
    [&[4, 1, 0, 0, 0, 0, 0, 0], data].concat()
}

fn walked(mut data: &[u8]) -> Vec<Walked> {
    let mut walk = Walk::new(4096, Agreed::default());
    let mut found = Vec::new();
    while !data.is_empty() {
        let (count, token) = walk.next(data).expect("an answer");
        found.extend(token);
        data = &data[count..];
    }
    found
}

#[test]
fn all_at_once() {
    let data = [&[0x79, 1, 0, 0, 0].repeat(100), ENDED].concat();
    for cut in 0..40 {
        let (mut client, mut told) = (asked(), Vec::new());
        assert_eq!(client.hear_data(&data[..cut], false, &mut told), Ok(Taken::More));
        assert_eq!(client.hear_data(&data[cut..], true, &mut told), Ok(Taken::Finished));
        assert_eq!(told, walked(&data));
        assert_eq!(client.state(), State::Idle);
    }
    let (mut client, mut told) = (asked(), Vec::new());
    assert_eq!(client.hear(&packet(&data), &mut told), Ok(Taken::Finished));
    assert_eq!(told, walked(&data));
    assert_eq!(client.hear(&[4, 1], &mut told), Err(Fault::NoPacket));
    let mut quiet = asked();
    assert_eq!((quiet.follow(&packet(&data)), quiet.state()), (Ok(Taken::Finished), State::Idle));
    assert_eq!(quiet.follow(&[4, 1]), Err(Fault::NoPacket));
}

/// A peer's fault is a peer's also at a message's end.
#[test]
fn faults() {
    for (data, fault, count) in [(&[0x79, 1, 0, 0, 0, 0][..], 11, 1), (&[0x79, 1][..], 15, 0)] {
        let (mut client, mut told) = (asked(), Vec::new());
        assert_eq!(client.hear(&packet(data), &mut told), Err(Fault::Peer(fault)));
        assert_eq!(told.len(), count);
        assert_eq!(client.walk().refused().map(|it| (it.at, it.byte, it.fault)), (fault == 11).then_some((5, 0, Fault::Peer(11))));
        assert!(matches!(client.state(), State::Broken(_)) && Fault::Peer(fault).is_peer());
    }
    let mut client = Client::new(512).unwrap();
    client.mark_reset(Reset::Full).unwrap();
    client.start(Request::Batch("a")).unwrap();
    assert_eq!(client.send(&mut Vec::new()), Ok(false));
    assert_eq!(client.hear(&packet(ENDED), &mut Vec::new()), Err(Fault::Peer(16)));
}

/// Each has a text of its own, and its number in it.
#[test]
fn texts() {
    let own = [Fault::NoMemory, Fault::OutOfRange, Fault::NoPacket, Fault::NotIdle, Fault::NotSending, Fault::Broken, Fault::NoSuch, Fault::AllInUse, Fault::NotNow];
    let packets = (1..=6).map(Fault::Packet).chain((1..=7).map(Fault::Token));
    let all: Vec<Fault> = own.into_iter().chain(packets).chain((1..=9).chain(11..=16).map(Fault::Peer)).collect();
    let mut texts: Vec<String> = all.iter().map(|it| it.to_string().split_once(": ").unwrap().1.to_string()).collect();
    texts.sort();
    texts.dedup();
    assert_eq!((texts.len(), texts.contains(&"see mouktelf.h".to_string())), (all.len(), false));
    assert_eq!(all.iter().filter(|it| it.is_peer()).count(), 6 + 7 + 15);
    assert_eq!(Fault::Peer(16).to_string(), "fault 76: the request asked for a reset, and its answer tells of none");
}

/// What arrives in one piece is cut in time that grows with it.
#[test]
fn many_packets() {
    let one = [&[4, 0, 0, 35][..], &[0; 31]].concat();
    let all = [one.repeat(16_000), one[..7].to_vec()].concat();
    let mut packets = Packets::new(&all, 512);
    assert_eq!(packets.by_ref().filter(|it| *it == Ok(&one[..])).count(), 16_000);
    assert_eq!(packets.rest(), &one[..7]);
}

/// The strict reader takes the batch language, and nothing else.
#[test]
fn strict() {
    let mut client = StrictClient::new(512).unwrap();
    client.start(Request::Batch("a")).unwrap();
    assert_eq!(client.send(&mut Vec::new()), Ok(false));
    assert_eq!(client.take(&[&[4, 1, 0, 37, 0, 0, 1, 0][..], &[0; 29]].concat()).err(), Some(Fault::Peer(8)));
}
