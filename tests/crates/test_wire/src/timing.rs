//! How long a walk takes, to be compared with the same walk in plain C (bench/plain_wire.c).

use std::time::CpuClock;
use std::{fs, io};
use tds_wire::{Features, TokenParser, Told};

/// The most columns of a result.
const MOST_COLUMNS: u16 = 4096;

/// What was walked.
#[derive(Clone, Copy)]
struct Sums {
    tokens: u64,
    /// The sum of the tokens' lengths.
    lengths: u64,
    /// The sum of the counts of rows that the DONEs tell.
    rows: u64,
}

/// Walks a file's data so many times, in pieces of so many bytes, and prints the nanoseconds that it took and the sums.
pub(crate) fn time_walks(rt: &HostRuntime, file: &str, piece: usize, times: u64) -> io::Result<()> {
    let bytes = fs::read(rt, file)?;
    let features = Features {
        encryption: false,
        ranks: false,
    };
    let mut parser = TokenParser::new(rt.alloc(), MOST_COLUMNS, features)?;
    let mut sums = Sums {
        tokens: 0,
        lengths: 0,
        rows: 0,
    };
    let start = rt.process_cpu_time()?;
    for _ in 0..times {
        parser.restart();
        walk_all(&mut parser, bytes.as_slice(), piece, &mut sums);
    }
    let taken = rt.process_cpu_time()?.saturating_sub(start).as_nanos();
    let Sums {
        tokens,
        lengths,
        rows,
    } = sums;
    println!(rt; "walk {taken} {tokens} {lengths} {rows}")
}

/// Walks one message in pieces of so many bytes.
fn walk_all(parser: &mut TokenParser, bytes: &[u8], size: usize, sums: &mut Sums) {
    let mut rest = bytes;
    for _ in 0..bytes.len() {
        let (piece, others) = rest.split_at(size.min(rest.len()));
        walk_piece(parser, piece, sums);
        rest = others;
        if rest.is_empty() {
            break;
        }
    }
}

/// Walks a piece. Nothing is added behind a fault.
fn walk_piece(parser: &mut TokenParser, piece: &[u8], sums: &mut Sums) {
    let mut rest = piece;
    for _ in 0..piece.len() {
        let Ok(fed) = parser.feed(rest) else {
            break;
        };
        if let Some(token) = fed.token {
            sums.tokens = sums.tokens.wrapping_add(1);
            sums.lengths = sums.lengths.wrapping_add(token.length);
            if let Told::Done(done) = token.told {
                sums.rows = sums.rows.wrapping_add(done.count);
            }
        }
        rest = rest.get(fed.count..).unwrap_or(&[]);
        if rest.is_empty() {
            break;
        }
    }
}
