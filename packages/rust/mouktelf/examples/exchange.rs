//! A request and its answer, a cancel that crosses the answer's end, a reset and a peer's fault.

use std::error::Error;
use mouktelf::{Cancelled, StrictClient, Fault, Packets, Request, Reset, State, Taken, Token, Tokens};

/// What the server sends: an answer's step or its end, as MS-TDS has it.
const BEGUN: &str = "0401002300000100E30B000808010000000000000000FD000000000000000000000000";
const SAID: &str = "0400002800000100AB100050C30000010001006100000000000000FD010000000000000000000000";
const ROWS: &str = "0400002C0000010081010000000000000038016E00D105000000D106000000FD110000000200000000000000";
const NOTHING_SET: &str = "0400001A000001007900000000FD010000000000000000000000";
const RESET_STEP: &str = "0400000E00000100E30300120000";
const ENDED: &str = "0401001500000200FD000000000000000000000000";
const ACKNOWLEDGED: &str = "0401001500000100FD200000000000000000000000";
const ATTENTION: &str = "0601000800000100";

fn bytes(hexadecimal: &str) -> Vec<u8> {
    let digits: Vec<u8> = hexadecimal.bytes().map(|c| (c as char).to_digit(16).unwrap_or(0) as u8).collect();
    digits.chunks(2).map(|pair| pair[0] << 4 | pair[1]).collect()
}

/// What came is taken packet by packet, and what is told is printed.
fn receive(client: &mut StrictClient, hexadecimal: &str) -> Result<Taken, Fault> {
    let piece = bytes(hexadecimal);
    let mut taken = Taken::More;
    for packet in Packets::new(&piece, 512) {
        let (answer, tokens) = client.take(packet?)?;
        taken = answer;
        for token in tokens {
            match token? {
                Token::Info(message) => println!("info {} {}", message.number, message.text),
                Token::Error(message) => println!("error {} {}", message.number, message.text),
                Token::ReturnStatus(value) => println!("status {value}"),
                Token::Columns(count) => println!("columns {count}"),
                Token::Row(values) => println!("row {}", values[0]),
                Token::Change(change) => println!("{change:?}"),
                Token::Done { status, rows, .. } => println!("done {status:04x} {rows}"),
            }
        }
    }
    Ok(taken)
}

fn ask(client: &mut StrictClient, request: Request<'_>) -> Result<Vec<u8>, Fault> {
    let mut out = Vec::new();
    client.start(request)?;
    while client.send(&mut out)? {}
    Ok(out)
}

/// Rows in one run, the tokens behind them, and data that are cut in a row.
fn runs() {
    let piece = bytes(ROWS);
    let (rows, tokens) = Tokens::behind_rows(&piece[21..], 1);
    assert_eq!(rows.collect::<Vec<_>>(), [[5], [6]]);
    assert_eq!(tokens.collect::<Vec<_>>(), [Ok(Token::Done { status: 0x11, cur_cmd: 0, rows: 2 })]);
    let (rows, tokens) = Tokens::behind_rows(&piece[8..29], 0);
    assert_eq!(rows.count(), 0);
    assert_eq!(tokens.collect::<Vec<_>>(), [Ok(Token::Columns(1)), Ok(Token::Row(vec![5])), Err(Fault::Token(2))]);
}

fn connection() -> Result<(), Box<dyn Error>> {
    let mut client = StrictClient::new(512)?;
    ask(&mut client, Request::Begin(0))?;
    assert_eq!(receive(&mut client, BEGUN)?, Taken::Finished);
    assert_eq!(client.descriptor(), 1);
    ask(&mut client, Request::Batch("rows 5 2"))?;
    assert_eq!(receive(&mut client, &format!("{ROWS}{ENDED}"))?, Taken::Finished);
    // A cancel that crosses the end of the answer.
    ask(&mut client, Request::Batch("say a"))?;
    receive(&mut client, SAID)?;
    let mut out = Vec::new();
    assert_eq!(client.cancel(&mut out)?, Cancelled::Asked);
    assert_eq!(out, bytes(ATTENTION));
    assert_eq!(receive(&mut client, ENDED)?, Taken::More);
    assert_eq!(receive(&mut client, ACKNOWLEDGED)?, Taken::Acknowledged);
    // A reset.
    client.mark_reset(Reset::Full)?;
    let out = ask(&mut client, Request::Batch("get x"))?;
    assert_eq!((out[0], out[1]), (1, 9));
    receive(&mut client, RESET_STEP)?;
    assert_eq!((client.reset_mark(), client.descriptor()), (None, 0));
    assert_eq!(receive(&mut client, &format!("{NOTHING_SET}{ENDED}"))?, Taken::Finished);
    assert_eq!(client.state(), State::Idle);
    // A peer's fault, and a loss behind it.
    assert_eq!(receive(&mut client, ENDED), Err(Fault::Peer(1)));
    client.lost();
    assert_eq!(client.state(), State::Broken(Fault::Peer(1)));
    let refused = client.start(Request::Commit(None)).expect_err("it is broken");
    assert_eq!(refused.to_string(), "fault 33: the client is broken");
    assert_eq!(client.start(Request::Begin(9)), Err(Fault::OutOfRange));
    Ok(())
}

fn main() -> Result<(), Box<dyn Error>> {
    runs();
    connection()
}
