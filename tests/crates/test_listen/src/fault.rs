//! What ends a run.

use std::alloc::{AllocError, AllocFailed};
use std::io;

/// What ends a run.
#[derive(Clone, Copy, Debug)]
pub enum SceneFault {
    Memory,
    /// A scene can't be begun, or a step can't be read.
    Step,
}

impl From<AllocError> for SceneFault {
    fn from(_: AllocError) -> SceneFault {
        SceneFault::Memory
    }
}

impl<T: Drop> From<AllocFailed<T>> for SceneFault {
    fn from(_: AllocFailed<T>) -> SceneFault {
        SceneFault::Memory
    }
}

impl From<SceneFault> for io::Error {
    fn from(fault: SceneFault) -> io::Error {
        match fault {
            SceneFault::Memory => io::Error::from(io::ErrorKind::OutOfMemory),
            SceneFault::Step => io::Error::from(io::ErrorKind::InvalidData),
        }
    }
}
