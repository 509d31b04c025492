//! The strict reader: the answers of the batch language, of `tdsserve` and of tests.

use crate::{raw, Client, Fault, State, Taken, Tokens};
use std::ops::{Deref, DerefMut};

/// A client that reads the batch language alone, a packet and its tokens at a time; whatever else a SQL Server answers it refuses.
/// What it takes, no walk sees: `take` all packets of an answer, or `hear` all of them.
pub struct StrictClient {
    client: Client,
}

impl Deref for StrictClient {
    type Target = Client;

    fn deref(&self) -> &Client {
        &self.client
    }
}

impl DerefMut for StrictClient {
    fn deref_mut(&mut self) -> &mut Client {
        &mut self.client
    }
}

impl StrictClient {
    /// One for packets of 512 to 32,767 bytes.
    pub fn new(size: u16) -> Result<StrictClient, Fault> {
        Ok(StrictClient { client: Client::new(size)? })
    }

    /// Takes one packet of an answer, and lends the tokens that are told: in reading all but the
    /// ENVCHANGEs, else none.
    pub fn take<'a>(&mut self, packet: &'a [u8]) -> Result<(Taken, Tokens<'a>), Fault> {
        let (reading, columns) = (self.client.state() == State::Reading, self.client.raw.columns);
        // SAFETY: the pointer and the length are those of one slice.
        let taken = match unsafe { raw::tds_client_take(&mut self.client.raw, packet.as_ptr(), packet.len()) } {
            1 => Taken::More,
            3 => Taken::Finished,
            4 => Taken::Acknowledged,
            number => return Err(Fault::of(number)),
        };
        Ok((taken, if reading { Tokens::told(&packet[8..], columns) } else { Tokens::told(&[], 0) }))
    }
}
