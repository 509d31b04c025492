//! Each refusal of a lease that is to be kept, and of a ticket.

use super::{back, begin, breaks, busy, lease, pool, spend};
use std::alloc::{AllocError, Global};
use std::fmt::Write;
use tds_packet::Reset;
use tds_pool::{GivenBack, Lease, Opened, Pool};

/// Each refusal of a lease that is to be kept, and of a ticket, in its order. One pool gives all leases,
/// each on the next connection.
pub fn put(alloc: Global, text: &mut String) -> Result<(), AllocError> {
    let kept = all_kept(alloc);
    writeln!(text, "keep is refused in order: {kept:?}")?;
    let marked = match pool(alloc, 1) {
        Some(mut pool) => under_full_mark(alloc, &mut pool),
        None => 104,
    };
    writeln!(text, "keep is refused under a full mark: {marked}")?;
    let resumed = all_resumed(alloc);
    writeln!(text, "resume is refused in order: {resumed:?}")
}

fn all_kept(alloc: Global) -> [u8; 5] {
    match pool(alloc, 1) {
        Some(mut pool) => [
            keeps(alloc, &mut pool, 1, Before::Nothing),
            keeps(alloc, &mut pool, 2, Before::Begun),
            keeps(alloc, &mut pool, 3, Before::Asked),
            keeps(alloc, &mut pool, 4, Before::AskedAndBroken),
            keeps(alloc, &mut pool, 5, Before::Lost),
        ],
        None => [104; 5],
    }
}

fn all_resumed(alloc: Global) -> [u8; 4] {
    match pool(alloc, 1) {
        Some(mut pool) => [
            resumes(alloc, &mut pool, 1, Before::Nothing),
            resumes(alloc, &mut pool, 2, Before::Asked),
            resumes(alloc, &mut pool, 3, Before::AskedAndBroken),
            resumes(alloc, &mut pool, 4, Before::Lost),
        ],
        None => [104; 4],
    }
}

/// The number of the refusal to keep this lease; 0 for none. The lease is spent.
fn refused_keep(alloc: Global, pool: &mut Pool, lease: Lease) -> u8 {
    match pool.keep(lease) {
        Ok(ticket) => {
            let _ = pool.abandon(ticket);
            0
        }
        Err((lease, refusal)) => {
            spend(alloc, pool, lease);
            refusal.number()
        }
    }
}

/// What is done on a connection before its lease is kept.
#[derive(Clone, Copy)]
enum Before {
    Nothing,
    Begun,
    Asked,
    AskedAndBroken,
    Lost,
}

fn is_done(alloc: Global, pool: &mut Pool, number: u32, before: Before) -> bool {
    match before {
        Before::Nothing => true,
        Before::Begun => begin(alloc, pool, number),
        Before::Asked => busy(alloc, pool, number),
        Before::AskedAndBroken => busy(alloc, pool, number) && breaks(pool, number),
        Before::Lost => pool.lost(number),
    }
}

fn keeps(alloc: Global, pool: &mut Pool, number: u32, before: Before) -> u8 {
    let Some(lease) = lease(alloc, pool, Opened::New(number)) else {
        return 100;
    };
    let done = is_done(alloc, pool, number, before);
    let refused = refused_keep(alloc, pool, lease);
    let _ = pool.lost(number);
    if done { refused } else { 101 }
}

/// A transaction that a full reset is about to end isn't kept.
fn under_full_mark(alloc: Global, pool: &mut Pool) -> u8 {
    let Some(first) = lease(alloc, pool, Opened::New(1)) else {
        return 100;
    };
    let begun = begin(alloc, pool, 1);
    if back(alloc, pool, first) != (Some(GivenBack::Free(1)), 0) || !begun {
        return 101;
    }
    match lease(alloc, pool, Opened::Reused(1)) {
        Some(second) => refused_keep(alloc, pool, second),
        None => 102,
    }
}

/// Keeps a transaction, does something, and resumes it: the refusal's number, or 0 for none.
fn resumes(alloc: Global, pool: &mut Pool, number: u32, before: Before) -> u8 {
    let Some(lease) = lease(alloc, pool, Opened::New(number)) else {
        return 100;
    };
    let begun = begin(alloc, pool, number);
    let ticket = match pool.keep(lease) {
        Ok(ticket) => ticket,
        Err((lease, _)) => {
            spend(alloc, pool, lease);
            return 101;
        }
    };
    let done = is_done(alloc, pool, number, before);
    let answer = match pool.resume(ticket) {
        Ok(lease) => {
            let marked = match pool.client_mut(&lease) {
                Some(client) => {
                    client.reset_mark() == Some(Reset::KeepTransaction) && client.descriptor() == 1
                }
                None => false,
            };
            spend(alloc, pool, lease);
            if marked { 0 } else { 102 }
        }
        Err((ticket, refusal)) => {
            let _ = pool.abandon(ticket);
            refusal.number()
        }
    };
    let _ = pool.lost(number);
    if done && begun { answer } else { 103 }
}
