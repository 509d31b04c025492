//! What came of a step, in words.

use std::alloc::{AllocError, Global};
use tds_client::{Cancelled, ClientState, Taken};
use tds_listen::ListenFault;
use tds_packet::Reset;

/// The fault's number, behind it that of what is wrong, and where.
pub(crate) fn fault_text(alloc: Global, fault: &ListenFault) -> Result<String, AllocError> {
    let number = fault.number();
    match fault {
        ListenFault::Client(inner) => format!(in alloc; "fault {number}.{}", inner.number()),
        ListenFault::Wire(refusal) => {
            format!(in alloc;
                "fault {number}.{} at {}",
                refusal.fault.number(),
                refusal.at
            )
        }
        ListenFault::Cut | ListenFault::ResetUnanswered => format!(in alloc; "fault {number}"),
    }
}

pub(crate) fn taken_word(taken: Taken) -> &'static str {
    match taken {
        Taken::More => "more",
        Taken::Finished => "finished",
        Taken::Acknowledged => "acknowledged",
        Taken::NoMemory => "no memory",
    }
}

pub(crate) fn cancelled_word(cancelled: Cancelled) -> &'static str {
    match cancelled {
        Cancelled::Nothing => "nothing",
        Cancelled::Already => "already",
        Cancelled::Unsent => "unsent",
        Cancelled::Asked => "asked",
    }
}

pub(crate) fn mark_word(mark: Option<Reset>) -> &'static str {
    match mark {
        None => "none",
        Some(Reset::Full) => "full",
        Some(Reset::KeepTransaction) => "keep",
    }
}

pub(crate) fn state_text(alloc: Global, state: &ClientState) -> Result<String, AllocError> {
    match state {
        ClientState::Idle => String::from_str(alloc, "idle"),
        ClientState::Sending => String::from_str(alloc, "sending"),
        ClientState::Reading => String::from_str(alloc, "reading"),
        ClientState::Cancelling => String::from_str(alloc, "cancelling"),
        ClientState::Broken(fault) => format!(in alloc; "broken {}", fault.number()),
    }
}
