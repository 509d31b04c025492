//! A driver with a reader of its own: it streams its requests, reads the tokens of seven answers as a
//! SQL Server gives them (MS-TDS 2.2.7), and tells the client of each.

use std::error::Error;
use mouktelf::{Cancelled, Client, Fault, Heard, MessageKind, State, Taken};

const DONE: &str = "FD0000C10001000000000000 00";
const ANSWERS: [(&str, &str); 8] = [
    ("DONE alone", ""),
    ("USE x", "E3070001 017800 016D00"),
    ("SET LANGUAGE", "E3070002 017800 016D00"),
    ("EXEC p", "FF1100C10001000000000000 00 7900000000 FE0000E00000000000000000 00"),
    ("NVARCHAR", "810100 00000000 0900 E7 0800 0904D00034 01 7300 D1 0200 6100"),
    ("INTN", "810100 00000000 0900 26 04 01 6E00 D1 04 07000000"),
    ("ORDER BY", "A9 0200 0100"),
    ("BEGIN TRAN", "E30B0008 08 0500000000000000 00"),
];
const ACKNOWLEDGED: &str = "A9 0200 0100 FD20000000000000000000 0000";

fn bytes(hexadecimal: &str) -> Vec<u8> {
    let digits: Vec<u8> = hexadecimal.bytes().filter_map(|c| (c as char).to_digit(16)).map(|c| c as u8).collect();
    digits.chunks(2).map(|pair| pair[0] << 4 | pair[1]).collect()
}

/// A batch of so many bytes goes out in packets of 512.
fn send(client: &mut Client, body: usize) -> Result<(), Fault> {
    let (mut out, body) = (Vec::new(), b"g\0e\0t\0".repeat(body / 6 + 1)[..body].to_vec());
    client.start_message(MessageKind::Batch)?;
    for part in body.chunks(7) {
        client.put(part, &mut out)?;
    }
    client.finish(&mut out)?;
    println!("sent {} packets, {} bytes", out.chunks(512).count(), out.len());
    Ok(())
}

fn two(bytes: &[u8]) -> usize {
    usize::from(bytes[0]) | usize::from(bytes[1]) << 8
}

/// The token at the front, and how long it is. The only column has this type.
fn token(bytes: &[u8], column: &mut u8) -> (Heard, usize) {
    match bytes[0] {
        kind @ 0xFD..=0xFF => (Heard::Done(kind, two(&bytes[1..]) as u16), 13),
        0xE3 => {
            let at = if bytes[4] == 8 { 5 } else { 6 };
            let heard = match bytes[3] {
                8..=10 => Heard::Change(bytes[3], bytes[at..at + 8].iter().rev().fold(0, |value, byte| value << 8 | u64::from(*byte))),
                _ => Heard::Other,
            };
            (heard, 3 + two(&bytes[1..]))
        }
        0x79 => (Heard::Other, 5),
        0x81 => {
            *column = bytes[9];
            (Heard::Other, if *column == 0xE7 { 20 } else { 14 })
        }
        0xD1 if *column == 0xE7 => (Heard::Other, 3 + two(&bytes[1..])),
        0xD1 => (Heard::Other, 2 + usize::from(bytes[1])),
        _ => (Heard::Other, 3 + two(&bytes[1..])),
    }
}

/// Hears an answer, and counts what the caller is told of.
fn hear(client: &mut Client, what: &str, answer: &[u8], wanted: Taken) -> Result<(), Fault> {
    let (mut rest, mut column, mut told) = (answer, 0, 0);
    while !rest.is_empty() {
        let (heard, length) = token(rest, &mut column);
        told += usize::from(client.heard(heard)?);
        rest = &rest[length..];
    }
    assert_eq!(client.message_ended()?, wanted);
    assert_eq!(client.state(), State::Idle);
    println!("{what}: {told} told");
    Ok(())
}

fn main() -> Result<(), Box<dyn Error>> {
    let mut client = Client::new(512)?;
    for (i, (what, answer)) in ANSWERS.iter().enumerate() {
        send(&mut client, if i == 0 { 4000 } else { 6 })?;
        hear(&mut client, what, &bytes(&format!("{answer}{DONE}")), Taken::Finished)?;
    }
    assert_eq!(client.descriptor(), 5);
    send(&mut client, 6)?;
    assert_eq!(client.cancel(&mut Vec::new())?, Cancelled::Asked);
    hear(&mut client, "cancelled", &bytes(ACKNOWLEDGED), Taken::Acknowledged)?;
    assert_eq!(client.heard(Heard::Other), Err(Fault::Peer(1)));
    Ok(())
}
