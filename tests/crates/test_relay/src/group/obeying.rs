//! What the relay orders is done.

use super::Group;
use crate::connection::Connection;
use crate::tally::{Tally, Wrong, raise};
use std::alloc::AllocError;
use tds_relay::Order;

impl Group {
    /// Does all that the relay orders behind a call, which this application caused or none, and looks at
    /// what the relay has come to.
    pub(super) fn settle(
        &mut self,
        cause: Option<usize>,
        tally: &mut Tally,
    ) -> Result<(), AllocError> {
        let mut orders = Vec::new(self.alloc);
        self.read_orders(cause, &mut orders, tally)?;
        let mut place = 0usize;
        for _ in 0..10_000 {
            let Some(order) = orders.get(place).copied() else {
                break;
            };
            place = place.saturating_add(1);
            match order {
                Order::Open(number) => self.opening(number, tally)?,
                Order::Write(_) => {}
                Order::Close(tag) => {
                    let closed = self.close(tag, tally)?;
                    self.read_orders(closed, &mut orders, tally)?;
                }
            }
        }
        self.look_at_line(tally);
        self.look_at_doomed(tally);
        self.look_at_count(tally);
        self.look_at_names(tally);
        self.look_at_counts(tally);
        self.look_at_rooms(tally);
        Ok(())
    }

    /// Takes the orders behind a call that this application caused, or none. Who is to be written to is
    /// told; then what is sent on connections is looked at.
    fn read_orders(
        &mut self,
        cause: Option<usize>,
        orders: &mut Vec<Order>,
        tally: &mut Tally,
    ) -> Result<(), AllocError> {
        let new = self.relay.orders();
        for order in new.iter() {
            if let Order::Write(tag) = *order {
                self.tell(tag);
            }
        }
        orders.extend_from_slice(new.as_slice())?;
        self.look_at_connections(cause, tally);
        Ok(())
    }

    fn tell(&mut self, tag: usize) {
        if let Some(application) = self.application(tag) {
            application.is_told = true;
            return;
        }
        for connection in self.connections.iter_mut() {
            if connection.tag == tag {
                connection.is_told = true;
            }
        }
    }

    fn opening(&mut self, number: u64, tally: &mut Tally) -> Result<(), AllocError> {
        if !self.is_called(number, None) {
            tally.note(Wrong::Misnamed);
        }
        let tag = self.next_tag();
        self.relay.opening(number, tag);
        let mut connection = Connection::new(self.alloc, number, tag, self.most_data());
        // Who is lent it may leave in the next call.
        connection.set_held_by(self.relay.holder_tag(number));
        self.connections.push(connection)?;
        Ok(())
    }

    /// Closes what has this tag. Answers the application whose end the relay was told of.
    fn close(&mut self, tag: usize, tally: &mut Tally) -> Result<Option<usize>, AllocError> {
        if self.application(tag).is_some() {
            return self.close_application(tag, tally);
        }
        let mut found = None;
        for index in 0..self.connections.len() {
            if let Some(connection) = self.connections.get(index) {
                if connection.tag == tag {
                    found = Some(index);
                    if !connection.is_doomed {
                        tally.note(Wrong::ConnectionClosed);
                    }
                    // One that is closed for a packet's header isn't counted.
                    if connection.held_by.is_none() && self.refused != Some(connection.number) {
                        raise(&mut self.seen.failed);
                    }
                }
            }
        }
        if let Some(index) = found {
            if index < self.connections.len() {
                self.connections.remove(index);
            }
        }
        Ok(None)
    }

    /// The relay closes an application, behind what waits for it.
    fn close_application(
        &mut self,
        place: usize,
        tally: &mut Tally,
    ) -> Result<Option<usize>, AllocError> {
        let Group {
            relay,
            applications,
            ..
        } = self;
        let Some(Some(application)) = applications.get_mut(place) else {
            return Ok(None);
        };
        if !application.is_doomed {
            tally.note(Wrong::Closed);
        }
        let unsent = relay.unsent(application.key);
        if unsent.len() < application.waited {
            tally.note(Wrong::Dropped);
        }
        application.hear(unsent, tally)?;
        application.hear_close(tally);
        raise(&mut tally.closed);
        let Some(key) = self.take_out(place) else {
            return Ok(None);
        };
        self.relay.left(key)?;
        Ok(Some(key))
    }
}
