//! What is refused, and that nothing is written then.

use mouktelf::{login, Cancelled, Client, Fault, Packets, Request, Reset, State, StrictClient};

#[test]
fn versions_fit() {
    assert_eq!(mouktelf::version(), env!("CARGO_PKG_VERSION"));
}

#[test]
fn sizes() {
    for size in [0, 511, 32768, 65535] {
        assert_eq!(Client::new(size).err(), Some(Fault::OutOfRange));
    }
    assert!(Client::new(512).is_ok() && Client::new(32767).is_ok());
}

#[test]
fn calls_in_the_wrong_state() {
    let mut client = Client::new(512).unwrap();
    let mut out = Vec::new();
    assert_eq!(client.send(&mut out), Err(Fault::NotSending));
    assert_eq!(client.start(Request::Batch("")), Err(Fault::OutOfRange));
    assert_eq!(client.start(Request::Begin(6)), Err(Fault::OutOfRange));
    client.start(Request::Batch("say a")).unwrap();
    assert_eq!(client.start(Request::Batch("say b")), Err(Fault::NotIdle));
    assert_eq!(client.mark_reset(Reset::Full), Err(Fault::NotIdle));
    assert_eq!(client.cancel(&mut out), Ok(Cancelled::Unsent));
    assert!(out.is_empty() && client.state() == State::Idle);
}

#[test]
fn bytes_that_are_no_packet() {
    assert_eq!(Packets::new(&[0xFF; 8], 512).next(), Some(Err(Fault::Packet(1))));
    assert_eq!(Packets::new(&[], 512).next(), None);
    assert!(StrictClient::new(512).unwrap().take(&[]).is_err());
}

#[test]
fn login_by_hand() {
    let packet = login("sa", 4096);
    assert_eq!(packet.len(), 8 + 94 + 4);
    assert_eq!(packet[..12], [0x10, 1, 0, 106, 0, 0, 1, 0, 98, 0, 0, 0]);
    assert_eq!(packet[48..52], [94, 0, 2, 0]);
    assert_eq!(packet[102..], [b's', 0, b'a', 0]);
}
