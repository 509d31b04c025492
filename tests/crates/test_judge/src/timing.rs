//! How long a judge takes over the answers of a connection.

use crate::player::limits;
use std::time::CpuClock;
use std::{fs, io};
use tds_judge::{Direction, Finding, Judge};

/// A batch without a text: its packet, and ALL_HEADERS with descriptor 0.
const REQUEST: [u8; 30] = [
    1, 1, 0, 30, 0, 0, 1, 0, 22, 0, 0, 0, 18, 0, 0, 0, 2, 0, 0, 0, 0, 0, 0, 0, 0, 0, 1, 0, 0, 0,
];

/// Judges a file's bytes, the packets of an answer, so many times, each behind a request, in pieces of so
/// many bytes. Prints the nanoseconds of the processor that it took, the bytes, and how many findings
/// there are.
pub(crate) fn time_judging(rt: &HostRuntime, words: &[String]) -> io::Result<()> {
    let [file, piece, times] = words else {
        return Err(io::Error::from(io::ErrorKind::InvalidInput));
    };
    let bytes = fs::read(rt, file.as_str())?;
    let piece = piece.as_str().parse::<usize>().unwrap_or(1).max(1);
    let times = times.as_str().parse::<u64>().unwrap_or(1);
    let mut judge = Judge::new(rt.alloc(), limits())?;
    let mut found = Vec::new(rt.alloc());
    let start = rt.process_cpu_time()?;
    for _ in 0..times {
        take(&mut judge, Direction::ToServer, &REQUEST, &mut found)?;
        for piece in bytes.as_slice().chunks(piece) {
            take(&mut judge, Direction::ToClient, piece, &mut found)?;
        }
    }
    let taken = rt.process_cpu_time()?.saturating_sub(start).as_nanos();
    let all = times.saturating_mul(bytes.len() as u64);
    println!(rt; "judge {taken} {all} {}", found.len())
}

fn take(
    judge: &mut Judge,
    way: Direction,
    bytes: &[u8],
    found: &mut Vec<Finding>,
) -> io::Result<()> {
    match judge.take(way, 0, bytes, found) {
        Ok(()) => Ok(()),
        Err(_) => Err(io::Error::from(io::ErrorKind::OutOfMemory)),
    }
}
