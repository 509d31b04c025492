use std::alloc::{AllocError, AllocFailed};

/// What ends a sweep.
#[derive(Clone, Copy, Debug)]
pub enum SweepFault {
    Memory,
    /// What a sweep begins with can't be had.
    Setting,
    /// Behind a fault another answer came to a lawful packet.
    AnotherFault,
}

impl From<AllocError> for SweepFault {
    fn from(_: AllocError) -> SweepFault {
        SweepFault::Memory
    }
}

impl<T: Drop> From<AllocFailed<T>> for SweepFault {
    fn from(_: AllocFailed<T>) -> SweepFault {
        SweepFault::Memory
    }
}
