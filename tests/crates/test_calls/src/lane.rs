//! One direction of a connection.
ghost use Rattle.std.specs.Prelude.{◌≡◌, ◌+◌, ◌≤◌, length, take, drop, OnOk};
ghost use Rattle.tds_play.specs.Pipe.{no_traffic, sent, carried};

use std::alloc::{AllocError, Global};
use std::marker::Model;

/// Another byte comes in the place of one that was handed over.
#[derive(Clone, Copy, Drop)]
pub struct Change {
    /// Its place among all bytes of the direction, from 0.
    pub place: usize,
    /// What comes there.
    pub byte: u8,
}

/// The bytes that were handed over in one direction and those that came out, and how many calls
/// failed.
#[derive(Drop)]
pub(crate) struct Lane {
    handed: Vec<u8>,
    came: Vec<u8>,
    send_failures: u32,
    carry_failures: u32,
}

impl Model for Lane {
    ghost use Rattle.tds_play.specs.Pipe.{Traffic};

    ghost Value = { Traffic };

    ghost use Rattle.test_calls.specs.Links.{traffic_in};

    ghost view = { traffic_in };
}

impl Lane {
    pub(crate) fn new(alloc: Global) -> Lane
        ensures { result ≡ no_traffic }
    {
        Lane {
            handed: Vec::new(alloc),
            came: Vec::new(alloc),
            send_failures: 0,
            carry_failures: 0,
        }
    }

    /// These bytes are handed over.
    pub(crate) fn hand(&mut self, bytes: &[u8]) -> Result<(), AllocError>
        ensures { OnOk result (self.new ≡ sent self.old bytes.now 0) }
    {
        self.handed.extend_from_slice(bytes)
    }

    /// These bytes are handed over, and that fails.
    pub(crate) fn hand_in_vain(&mut self, bytes: &[u8]) -> Result<(), AllocError>
        ensures { OnOk result (self.new ≡ sent self.old bytes.now 1) }
    {
        let Some(failures) = self.send_failures.checked_add(1) else {
            return Err(AllocError);
        };
        self.send_failures = failures;
        self.handed.extend_from_slice(bytes)
    }

    /// Nothing comes, and that is a failure.
    pub(crate) fn stick(&mut self) -> Result<(), AllocError>
        ensures { OnOk result (
            self.new ≡ record self.old { carry_failures = self.old.carry_failures + 1 }) }
    {
        let Some(failures) = self.carry_failures.checked_add(1) else {
            return Err(AllocError);
        };
        self.carry_failures = failures;
        Ok(())
    }

    /// So many bytes come, with this change.
    pub(crate) fn bring(
        &mut self,
        alloc: Global,
        count: usize,
        change: Option<Change>,
        out: &mut Vec<u8>,
    ) -> Result<(), AllocError>
        requires { length self.old.came + count ≤ length self.old.handed }
        ensures count { OnOk result (length out.new.items ≡ length out.old.items + count) }
        ensures kept { OnOk result (take (length out.old.items) out.new.items ≡ out.old.items) }
        ensures ok { OnOk result (self.new
            ≡ carried self.old (drop (length out.old.items) out.new.items)) }
    {
        let start = self.came.len();
        let end = start + count;
        let mut bytes = Vec::new(alloc);
        bytes.extend_from_slice(&self.handed[start..end])?;
        alter(bytes.as_mut_slice(), start, change);
        out.extend_from_slice(bytes.as_slice())?;
        self.came.extend_from_slice(bytes.as_slice())
    }
}

/// Makes the change in bytes of which the first has this place.
fn alter(bytes: &mut [u8], start: usize, change: Option<Change>)
    ensures { length bytes.new ≡ length bytes.old }
{
    let Some(change) = change else {
        return;
    };
    let Some(place) = change.place.checked_sub(start) else {
        return;
    };
    match bytes.get_mut(place) {
        None => {}
        Some(byte) => *byte = change.byte,
    }
}
