//! How long a client takes to hear an answer, to be compared with a walk in plain C that finds the same
//! tokens and has no client (bench/plain_wire.c).

use crate::fault::SceneFault;
use std::time::CpuClock;
use std::{fs, io};
use tds_client::{Client, MessageKind};
use tds_listen::{hear_end, next};
use tds_packet::PacketSize;
use tds_wire::{Features, TokenParser, Told};

/// The most columns of a result.
const MOST_COLUMNS: u16 = 4096;

/// What was told.
#[derive(Clone, Copy)]
struct Sums {
    tokens: u64,
    /// The sum of the tokens' lengths.
    lengths: u64,
    /// The sum of the counts of rows that the DONEs tell.
    rows: u64,
}

/// Hears a file's data so many times, each as the answer to a request, in pieces of so many bytes.
/// Prints the nanoseconds that it took and the sums.
pub(crate) fn time_hearing(rt: &HostRuntime, words: &[String]) -> io::Result<()> {
    let [file, piece, times] = words else {
        return Err(io::Error::from(io::ErrorKind::InvalidInput));
    };
    let bytes = fs::read(rt, file.as_str())?;
    let piece = piece.as_str().parse::<usize>().unwrap_or(1).max(1);
    let times = times.as_str().parse::<u64>().unwrap_or(1);
    let Some(size) = PacketSize::new(4096) else {
        return Err(io::Error::from(io::ErrorKind::InvalidInput));
    };
    let features = Features {
        encryption: false,
        ranks: false,
    };
    let mut client = Client::new(rt.alloc(), size);
    let mut parser = TokenParser::new(rt.alloc(), MOST_COLUMNS, features)?;
    let mut out = Vec::new(rt.alloc());
    let mut sums = Sums {
        tokens: 0,
        lengths: 0,
        rows: 0,
    };
    let start = rt.process_cpu_time()?;
    for _ in 0..times {
        ask(&mut client, &mut out)?;
        hear_all(&mut client, &mut parser, bytes.as_slice(), piece, &mut sums);
        if hear_end(&mut client, &mut parser).is_err() {
            return Err(io::Error::from(io::ErrorKind::InvalidData));
        }
    }
    let taken = rt.process_cpu_time()?.saturating_sub(start).as_nanos();
    let Sums {
        tokens,
        lengths,
        rows,
    } = sums;
    println!(rt; "hear {taken} {tokens} {lengths} {rows}")
}

/// Sends a batch without a text.
fn ask(client: &mut Client, out: &mut Vec<u8>) -> Result<(), SceneFault> {
    out.clear();
    if client.start_message(MessageKind::Batch).is_err() {
        return Err(SceneFault::Step);
    }
    match client.finish(out) {
        Ok(()) => Ok(()),
        Err(_) => Err(SceneFault::Step),
    }
}

/// Hears one message in pieces of so many bytes.
fn hear_all(
    client: &mut Client,
    parser: &mut TokenParser,
    bytes: &[u8],
    size: usize,
    sums: &mut Sums,
) {
    let mut rest = bytes;
    for _ in 0..bytes.len() {
        let (piece, others) = rest.split_at(size.min(rest.len()));
        hear_piece(client, parser, piece, sums);
        rest = others;
        if rest.is_empty() {
            break;
        }
    }
}

/// Hears a piece. Nothing is added after a fault.
fn hear_piece(client: &mut Client, parser: &mut TokenParser, piece: &[u8], sums: &mut Sums) {
    let mut rest = piece;
    for _ in 0..piece.len() {
        let Ok(heard) = next(client, parser, rest) else {
            break;
        };
        if let Some(token) = heard.token {
            sums.tokens = sums.tokens.wrapping_add(1);
            sums.lengths = sums.lengths.wrapping_add(token.length);
            if let Told::Done(done) = token.told {
                sums.rows = sums.rows.wrapping_add(done.count);
            }
        }
        rest = rest.get(heard.count..).unwrap_or(&[]);
        if rest.is_empty() {
            break;
        }
    }
}
