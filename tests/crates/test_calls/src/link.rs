//! Both directions of a connection.
ghost use Rattle.std.specs.Prelude.{◌≡◌, ◌≢◌, ◌+◌, ◌<◌, ◌≤◌, Some, Err, true, false, length, take, drop, IfOk, OnOk};
ghost use Rattle.test_calls.specs.Links.{pipe_of};
ghost use Rattle.tds_play.specs.Pipe.{sent, sent_on, carried_on, stuck_on, traffic_of, new_pipe};
ghost use Rattle.tds_play.specs.declared.carrier.CarrierError.TheVariants.{Lost};

use crate::lane::{Change, Lane};
use std::alloc::Global;
use tds_packet::Direction;
use tds_play::CarrierError;

/// A connection.
#[derive(Drop)]
pub(crate) struct Link {
    to_server: Lane,
    to_client: Lane,
    open_failures: u32,
    is_cut: bool,
}

impl Link {
    /// A connection over which nothing went yet; where it fails to open, that is a failure.
    pub(crate) fn new(alloc: Global, fails: bool) -> Link
        ensures ok { fails ≡ false → pipe_of result ≡ new_pipe 0 }
        ensures lost { fails ≡ true → pipe_of result ≡ new_pipe 1 }
    {
        Link {
            to_server: Lane::new(alloc),
            to_client: Lane::new(alloc),
            open_failures: if fails { 1 } else { 0 },
            is_cut: false,
        }
    }

    /// Hands bytes over, or fails to.
    pub(crate) fn send(
        &mut self,
        direction: Direction,
        bytes: &[u8],
        fails: bool,
    ) -> Result<(), CarrierError>
        ensures ok { OnOk result (
            Some (pipe_of self.new) ≡ sent_on (Some (pipe_of self.old)) direction bytes.now 0) }
        ensures lost { result ≡ Err Lost
            → Some (pipe_of self.new) ≡ sent_on (Some (pipe_of self.old)) direction bytes.now 1 }
    {
        match direction {
            Direction::ToServer => send(&mut self.to_server, bytes, fails),
            Direction::ToClient => send(&mut self.to_client, bytes, fails),
        }
    }

    /// Brings so many bytes, with this change.
    pub(crate) fn bring(
        &mut self,
        alloc: Global,
        direction: Direction,
        count: usize,
        change: Option<Change>,
        out: &mut Vec<u8>,
    ) -> Result<usize, CarrierError>
        requires { length (traffic_of (pipe_of self.old) direction).came + count
            ≤ length (traffic_of (pipe_of self.old) direction).handed }
        ensures same { IfOk result (λ n. n ≡ count) }
        ensures count { OnOk result (length out.new.items ≡ length out.old.items + count) }
        ensures kept { OnOk result (take (length out.old.items) out.new.items ≡ out.old.items) }
        ensures ok { OnOk result (
            Some (pipe_of self.new)
            ≡ carried_on (Some (pipe_of self.old)) direction
            (drop (length out.old.items) out.new.items)) }
        ensures found { result ≢ Err Lost }
    {
        match direction {
            Direction::ToServer => self.to_server.bring(alloc, count, change, out)?,
            Direction::ToClient => self.to_client.bring(alloc, count, change, out)?,
        }
        Ok(count)
    }

    /// Brings nothing, which is a failure.
    pub(crate) fn stick(&mut self, direction: Direction) -> Result<usize, CarrierError>
        ensures ok { IfOk result (λ _. ⊥) }
        ensures lost { result ≡ Err Lost
            → Some (pipe_of self.new) ≡ stuck_on (Some (pipe_of self.old)) direction }
    {
        match direction {
            Direction::ToServer => self.to_server.stick()?,
            Direction::ToClient => self.to_client.stick()?,
        }
        Err(CarrierError::Lost)
    }

    /// Cuts it.
    pub(crate) fn cut(&mut self)
        ensures { self.new ≡ record self.old { is_cut = true } }
    {
        self.is_cut = true;
    }
}

/// Hands bytes over in one direction, or fails to.
fn send(lane: &mut Lane, bytes: &[u8], fails: bool) -> Result<(), CarrierError>
    ensures ok { OnOk result (lane.new ≡ sent lane.old bytes.now 0) }
    ensures lost { result ≡ Err Lost → lane.new ≡ sent lane.old bytes.now 1 }
{
    if fails {
        lane.hand_in_vain(bytes)?;
        return Err(CarrierError::Lost);
    }
    lane.hand(bytes)?;
    Ok(())
}
