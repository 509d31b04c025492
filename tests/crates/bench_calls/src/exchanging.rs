//! A service whose connections are all held: what an exchange costs on the last one.
use crate::fault::SpeedFault;
use std::alloc::Global;
use tds_client::MessageKind;
use tds_packet::PacketSize;
use tds_service::{Outcome, Service};
use tds_wire::Features;

/// An answer of one token, DONE: its status, its command and its count are 0 (MS-TDS 2.2.7.6).
const ANSWER: [u8; 13] = [0xFD, 0, 0, 0, 0, 0, 0, 0, 0, 0, 0, 0, 0];

/// A service of so many connections, all of which are held, and the lease of the last one.
pub fn all_held(
    alloc: Global,
    count: usize,
    size: PacketSize,
) -> Result<(Service, u64), SpeedFault> {
    let features = Features {
        encryption: false,
        ranks: false,
    };
    let Some(mut service) = Service::new(alloc, count, size, 8, features) else {
        return Err(SpeedFault::Refused);
    };
    let mut last = 0;
    for _ in 0..count {
        let Ok(lent) = service.lease() else {
            return Err(SpeedFault::Refused);
        };
        last = lent.lease;
    }
    Ok((service, last))
}

/// So many requests by this lease, and their answers.
pub fn exchange(
    alloc: Global,
    service: &mut Service,
    lease: u64,
    times: u32,
) -> Result<(), SpeedFault> {
    let mut out = Vec::new(alloc);
    for _ in 0..times {
        out.clear();
        let Ok(asked) = service.ask(lease, MessageKind::Batch) else {
            return Err(SpeedFault::Refused);
        };
        if service.put(lease, &[0x31, 0], &mut out).is_err() {
            return Err(SpeedFault::Refused);
        }
        if service.finish(lease, &mut out).is_err() {
            return Err(SpeedFault::Refused);
        }
        match service.heard(asked.number, &ANSWER, true) {
            Ok(came) if matches!(came.outcome, Outcome::Finished) => {}
            _ => return Err(SpeedFault::Refused),
        }
    }
    Ok(())
}
