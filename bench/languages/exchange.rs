//! One request and its answer by known bytes, so many times: microseconds each, the fastest of 7 runs.

use mouktelf::{Fault, Packets, Request, StrictClient};
use std::time::Instant;

const ANSWER: [u8; 65] = [
    0x04, 0x00, 0x00, 0x2C, 0, 0, 1, 0, 0x81, 1, 0, 0, 0, 0, 0, 0, 0, 0x38, 1, 0x6E, 0, 0xD1, 5, 0, 0, 0, 0xD1, 6, 0, 0, 0, 0xFD,
    0x11, 0, 0, 0, 2, 0, 0, 0, 0, 0, 0, 0, 0x04, 0x01, 0x00, 0x15, 0, 0, 2, 0, 0xFD, 0, 0, 0, 0, 0, 0, 0, 0, 0, 0, 0, 0,
];
const TIMES: u32 = 100_000;

fn exchange(client: &mut StrictClient, out: &mut Vec<u8>) -> Result<usize, Fault> {
    out.clear();
    client.start(Request::Batch("rows 5 2"))?;
    client.send(out)?;
    let mut told = 0;
    for packet in Packets::new(&ANSWER, 512) {
        let (_, tokens) = client.take(packet?)?;
        told += tokens.count();
    }
    Ok(told)
}

fn main() -> Result<(), Fault> {
    let (mut client, mut out, mut best, mut told) = (StrictClient::new(512)?, Vec::new(), f64::MAX, 0);
    for _ in 0..7 {
        let begun = Instant::now();
        for _ in 0..TIMES {
            told = exchange(&mut client, &mut out)?;
        }
        best = best.min(begun.elapsed().as_secs_f64() / f64::from(TIMES) * 1e6);
    }
    println!("{best:.2} microseconds, {told} tokens");
    Ok(())
}
