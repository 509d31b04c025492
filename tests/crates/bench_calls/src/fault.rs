use std::alloc::{AllocError, AllocFailed};
use std::io;
use tds_client::ClientFault;
use tds_packet::PacketFault;
use tds_server::ServerFault;
use tds_token::TokenFault;
use thiserror::Error;

/// Why a walk isn't done.
#[derive(Debug, Drop, Error)]
pub enum SpeedFault {
    #[error("usage: bench_calls count SIZE FILE.., walk WALK FILE SIZE TIMES, sizes, memory KIND COUNT SIZE, leases COUNT TIMES, exchanges COUNT TIMES, relayed COUNT TIMES, or in_turn COUNT TIMES")]
    Usage,
    #[error("error: input or output")]
    Io,
    #[error("error: memory")]
    Memory,
    #[error("error: the bytes end inside a packet")]
    Cut,
    #[error("error: an end, a pool, a service or a relay refuses a call")]
    Refused,
    #[error("error: packet {0}")]
    Packet(u8),
    #[error("error: token {0}")]
    Token(u8),
    #[error("error: client {0}")]
    Client(u8),
    #[error("error: server {0}")]
    Server(u8),
}

impl From<AllocError> for SpeedFault {
    fn from(_: AllocError) -> SpeedFault {
        SpeedFault::Memory
    }
}

impl<T: Drop> From<AllocFailed<T>> for SpeedFault {
    fn from(_: AllocFailed<T>) -> SpeedFault {
        SpeedFault::Memory
    }
}

impl From<io::Error> for SpeedFault {
    fn from(_: io::Error) -> SpeedFault {
        SpeedFault::Io
    }
}

impl From<PacketFault> for SpeedFault {
    fn from(fault: PacketFault) -> SpeedFault {
        SpeedFault::Packet(fault.number())
    }
}

impl From<TokenFault> for SpeedFault {
    fn from(fault: TokenFault) -> SpeedFault {
        SpeedFault::Token(fault.number())
    }
}

impl From<ClientFault> for SpeedFault {
    fn from(fault: ClientFault) -> SpeedFault {
        SpeedFault::Client(fault.number())
    }
}

impl From<ServerFault> for SpeedFault {
    fn from(fault: ServerFault) -> SpeedFault {
        SpeedFault::Server(fault.number())
    }
}
