//! All that a token tells, as words.

use crate::walk::put_done;
use std::alloc::AllocError;
use tds_wire::{Change, ChangeValue, Message, Place, SessionState, Told};

/// Puts all that a token tells.
pub(crate) fn put_values(told: Told, text: &mut String) -> Result<(), AllocError> {
    match told {
        Told::Done(done) => put_done(done, text),
        Told::Change(change) => put_change(change, text),
        Told::Message(message) => put_message(message, text),
        Told::ReturnStatus(value) => write!(text, " value {value}"),
        Told::SessionState(state) => put_state(state, text),
        Told::Unclear => text.push_str(" unclear"),
        _ => Ok(()),
    }
}

fn put_change(change: Change, text: &mut String) -> Result<(), AllocError> {
    let kind = change.kind;
    write!(text, " {kind}")?;
    match change.value {
        ChangeValue::Transaction { new, old } => write!(text, " transaction {new} {old}"),
        ChangeValue::ResetDone => text.push_str(" reset"),
        ChangeValue::PacketSize(size) => write!(text, " size {size}"),
        ChangeValue::Values { new, old } => {
            text.push_str(" values")?;
            put_place(new, text)?;
            put_place(old, text)
        }
        ChangeValue::Other => text.push_str(" other"),
    }
}

fn put_message(message: Message, text: &mut String) -> Result<(), AllocError> {
    let Message {
        number,
        state,
        class,
        text: words,
        names,
    } = message;
    write!(text, " message {number} {state} {class}")?;
    put_place(words, text)?;
    put_place(names, text)
}

fn put_state(state: SessionState, text: &mut String) -> Result<(), AllocError> {
    let SessionState {
        sequence,
        is_recoverable,
        states,
    } = state;
    let kept = if is_recoverable {
        "recoverable"
    } else {
        "lost"
    };
    write!(text, " state {sequence} {kept}")?;
    put_place(states, text)
}

fn put_place(place: Place, text: &mut String) -> Result<(), AllocError> {
    let Place { start, length } = place;
    write!(text, " {start} {length}")
}
