//! The calls of the pool. Each lease is spent, whatever comes.

use super::cores::ask;
use super::layers::size;
use super::tried::{Fault, Tried, again};
use std::alloc::Global;
use tds_pool::{GivenBack, Lease, Place, Pool, PoolRefusal};

fn pool(alloc: Global) -> Result<Pool, Fault> {
    Pool::new(alloc, 4, size()?).ok_or(Fault::Wrong)
}

/// A lease.
fn lease(alloc: Global, pool: &mut Pool) -> Result<Lease, Fault> {
    match pool.lease(alloc) {
        Ok((lease, _)) => Ok(lease),
        Err(PoolRefusal::Memory) => Err(Fault::Memory),
        Err(_) => Err(Fault::Wrong),
    }
}

fn lease_again(alloc: Global, pool: &mut Pool) -> Result<Lease, Fault> {
    match lease(alloc, pool) {
        Ok(lease) => Ok(lease),
        Err(_) => Err(Fault::Wrong),
    }
}

/// Spends a lease whose connection is lost.
fn spend(alloc: Global, pool: &mut Pool, lease: Lease) {
    let mut out = Vec::new(alloc);
    let _ = pool.lost(lease.number());
    match pool.give_back(lease, &mut out) {
        Ok(_) => {}
        Err(_) => unreachable!(),
    }
}

/// How many connections are in the pool, and how many are lent.
fn counts(pool: &Pool) -> (usize, usize) {
    (pool.len(), pool.count(Place::Leased))
}

/// A call of a pool.
#[derive(Clone, Copy)]
pub enum PoolCall {
    Lease,
    GiveBack,
    Numbers,
    NumbersAt,
}

/// Makes it on a pool that is new.
pub fn call(alloc: Global, call: PoolCall, tried: &mut Tried) -> Result<(), Fault> {
    let mut pool = pool(alloc)?;
    match call {
        PoolCall::Lease => pool_lease(alloc, &mut pool, tried),
        PoolCall::GiveBack => pool_give_back(alloc, &mut pool, tried),
        PoolCall::Numbers => pool_numbers(alloc, &mut pool, true, tried),
        PoolCall::NumbersAt => pool_numbers(alloc, &mut pool, false, tried),
    }
}

fn pool_lease(alloc: Global, pool: &mut Pool, tried: &mut Tried) -> Result<(), Fault> {
    let lease = match lease(alloc, pool) {
        Err(Fault::Memory) => {
            tried.refuse(counts(pool) == (0, 0));
            lease_again(alloc, pool)?
        }
        leased => leased?,
    };
    let number = lease.number();
    spend(alloc, pool, lease);
    tried.count(u64::from(number))
}

/// Gives a lease back whose client waits for an answer; again where memory was wanted.
fn back(alloc: Global, pool: &mut Pool, lease: Lease, tried: &mut Tried) -> Result<(), Fault> {
    let mut out = Vec::new(alloc);
    let given = match pool.give_back(lease, &mut out) {
        Ok(given) => given,
        Err((lease, _)) => {
            tried.refuse(out.is_empty() && counts(pool) == (1, 1));
            back_again(alloc, pool, lease, &mut out)?
        }
    };
    if given != GivenBack::Draining(1) {
        return Err(Fault::Wrong);
    }
    tried.get(out.as_slice())
}

fn back_again(
    alloc: Global,
    pool: &mut Pool,
    lease: Lease,
    out: &mut Vec<u8>,
) -> Result<GivenBack, Fault> {
    match pool.give_back(lease, out) {
        Ok(given) => Ok(given),
        Err((lease, _)) => {
            spend(alloc, pool, lease);
            Err(Fault::Wrong)
        }
    }
}

fn pool_give_back(alloc: Global, pool: &mut Pool, tried: &mut Tried) -> Result<(), Fault> {
    let lease = lease(alloc, pool)?;
    let asked = match pool.client_mut(&lease) {
        Some(client) => ask(alloc, client),
        None => Err(Fault::Wrong),
    };
    match asked {
        Ok(()) => back(alloc, pool, lease, tried),
        Err(fault) => {
            spend(alloc, pool, lease);
            Err(fault)
        }
    }
}

/// The numbers of the pool's connections, or of those that are lent.
fn numbers(alloc: Global, pool: &Pool, of_all: bool, tried: &mut Tried) -> Result<(), Fault> {
    let numbers = if of_all {
        pool.numbers(alloc)
    } else {
        pool.numbers_at(alloc, Place::Leased)
    };
    let Ok(numbers) = numbers else {
        return Err(Fault::Refused);
    };
    for number in numbers.as_slice() {
        tried.count(u64::from(*number))?;
    }
    Ok(())
}

/// Those of a pool with one lease; again where memory was wanted.
fn pool_numbers(
    alloc: Global,
    pool: &mut Pool,
    of_all: bool,
    tried: &mut Tried,
) -> Result<(), Fault> {
    let lease = lease(alloc, pool)?;
    let mut told = numbers(alloc, pool, of_all, tried);
    if let Err(Fault::Refused) = told {
        tried.refuse(counts(pool) == (1, 1));
        told = again(numbers(alloc, pool, of_all, tried));
    }
    spend(alloc, pool, lease);
    told
}
