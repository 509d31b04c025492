//! A pool of which one connection is free, the last one: what it costs to lend that.
use crate::fault::SpeedFault;
use crate::idle::give_back;
use std::alloc::Global;
use tds_packet::PacketSize;
use tds_pool::Pool;

/// A pool of so many connections, of which all but the last are lent.
pub fn nearly_lent(alloc: Global, count: u16, size: PacketSize) -> Result<Pool, SpeedFault> {
    let Some(mut pool) = Pool::wide(alloc, count, size) else {
        return Err(SpeedFault::Refused);
    };
    for _ in 1..count {
        // A stored lease that is dropped leaves its connection lent.
        let Ok((lease, _)) = pool.lease(alloc) else {
            return Err(SpeedFault::Refused);
        };
        let _lent = lease.store();
    }
    lend_last(alloc, &mut pool, 1)?;
    Ok(pool)
}

/// Lends the connection that is free, and gives it back, so many times.
pub fn lend_last(alloc: Global, pool: &mut Pool, times: u32) -> Result<(), SpeedFault> {
    for _ in 0..times {
        let Ok((lease, _)) = pool.lease(alloc) else {
            return Err(SpeedFault::Refused);
        };
        give_back(alloc, pool, lease);
    }
    Ok(())
}
