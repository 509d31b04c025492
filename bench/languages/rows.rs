//! An answer of 600 rows of one INTN in a packet, heard in one call, by a client and by a table, and where its values stand: microseconds
//! a row of the fastest packet of 14,000, by the clock of the wall: nobody else ran in it.

use mouktelf::rows::{Columns, RowPlace};
use mouktelf::{Client, Fault, Request, Service};
use std::time::Instant;

const ROWS: usize = 600;
const TIMES: usize = 14_000;

fn fewest(what: &str, mut once: impl FnMut() -> Result<usize, Fault>) -> Result<(), Fault> {
    let (mut best, mut count) = (f64::MAX, 0);
    for _ in 0..TIMES {
        let begun = Instant::now();
        count = once()?;
        best = best.min(begun.elapsed().as_secs_f64() * 1e6 / ROWS as f64);
    }
    print!("{best:.3} microseconds a row, {count} {what}; ");
    Ok(())
}

fn main() -> Result<(), Fault> {
    let head = [4, 1, 0x0E, 0x33, 0, 0, 1, 0, 0x81, 1, 0, 0, 0, 0, 0, 9, 0, 0x26, 4, 1, 0x6E, 0];
    let done = [0xFD, 0x10, 0, 0xC1, 0, 1, 0, 0, 0, 0, 0, 0, 0];
    let packet = [&head[..], &[0xD1, 4, 7, 0, 0, 0].repeat(ROWS), &done].concat();
    let (mut client, mut service, mut out, mut told) = (Client::new(4096)?, Service::new(1, 4096)?, Vec::new(), Vec::new());
    let lease = service.lease()?.lease;
    fewest("tokens heard by a client", || {
        out.clear();
        told.clear();
        client.start(Request::Batch("a"))?;
        client.send(&mut out)?;
        client.hear(&packet, &mut told)?;
        Ok(told.len())
    })?;
    fewest("by a client that tells nothing", || {
        out.clear();
        client.start(Request::Batch("a"))?;
        client.send(&mut out)?;
        client.follow(&packet)?;
        Ok(0)
    })?;
    fewest("by a table", || {
        out.clear();
        told.clear();
        service.ask_batch(lease, "a", &mut out)?;
        service.hear(1, &packet, &mut told)?;
        Ok(told.len())
    })?;
    let (columns, mut places) = (Columns::of(&packet[8..], false)?.expect("columns"), Vec::new());
    fewest("places alone", || {
        let mut rest = &packet[head.len()..];
        for _ in 0..ROWS {
            rest = &rest[columns.places(rest, &mut places)?..];
        }
        Ok(ROWS * places.len())
    })?;
    let mut room = vec![RowPlace::default(); ROWS];
    fewest("places in one call", || Ok(columns.places_of_rows(&packet[head.len()..], &mut room)?.0))?;
    println!();
    Ok(())
}
