//! The carrier.
ghost use Rattle.std.specs.Prelude.{◌≡◌, ◌<◌, None, Some, Err, ℕ};
ghost use Rattle.test_calls.specs.Links.{pipe_at};
ghost use Rattle.tds_play.specs.declared.carrier.CarrierError.TheVariants.{Lost, Memory};

use crate::lane::Change;
use crate::link::Link;
use std::alloc::{AllocError, Global};
use std::collections::BTreeMap;
use tds_packet::Direction;
use tds_play::{Carrier, CarrierError};

/// What a carrier does with its links.
#[derive(Clone, Copy, Drop)]
pub struct Plan {
    /// Which call fails, of all calls of `open`, `send` and `carry`, from 1.
    pub failing: Option<u32>,
    /// The most bytes that a call of `carry` brings. It brings one at least.
    pub most: usize,
    /// What comes otherwise than it was handed over: of which connection, and which way.
    pub change: Option<(u32, Direction, Change)>,
}

/// Carries bytes in memory by a plan, and counts what it was asked. What comes may be other than what
/// was handed over.
#[derive(Drop)]
pub struct FailingCarrier {
    alloc: Global,
    plan: Plan,
    links: BTreeMap<u32, Link>,
    calls: u32,
    lost: Vec<u32>,
}

impl FailingCarrier {
    /// A carrier without a connection, and with this plan. It takes no memory.
    pub fn new(alloc: Global, plan: Plan) -> FailingCarrier
        ensures empty { (conn : ℕ) → pipe_at result.links conn ≡ None }
    {
        FailingCarrier {
            alloc,
            plan,
            links: BTreeMap::new(alloc),
            calls: 0,
            lost: Vec::new(alloc),
        }
    }

    /// How many calls of `open`, `send` and `carry` there were. It stays at its greatest value.
    pub fn calls(&self) -> u32
        ensures { result ≡ self.now.calls }
    {
        self.calls
    }

    /// The connection of each call that failed, in order.
    pub fn lost(&self) -> &[u32]
        ensures { result.now ≡ self.now.lost.items }
    {
        self.lost.as_slice()
    }

    /// Counts a call on this connection, and says whether it fails.
    fn fails(&mut self, conn: u32) -> Result<bool, AllocError>
        ensures links { self.new.links ≡ self.old.links }
    {
        self.calls = self.calls.saturating_add(1);
        let fails = self.plan.failing == Some(self.calls);
        if fails && self.lost.push(conn).is_err() {
            return Err(AllocError);
        }
        Ok(fails)
    }

    /// The change that this direction of this connection has.
    fn change_in(&self, conn: u32, direction: Direction) -> Option<Change> {
        let (of, way, change) = self.plan.change?;
        if of == conn && way == direction {
            return Some(change);
        }
        None
    }
}

impl Carrier for FailingCarrier {
    ghost pipes = { λ c. pipe_at c.links };

    fn open(&mut self, conn: u32) -> Result<(), CarrierError> {
        let fails = self.fails(conn)?;
        let link = Link::new(self.alloc, fails);
        match self.links.insert(conn, link) {
            Err(_) => Err(CarrierError::Memory),
            Ok(_) if fails => Err(CarrierError::Lost),
            Ok(_) => Ok(()),
        }
    }

    fn send(&mut self, conn: u32, direction: Direction, bytes: &[u8]) -> Result<(), CarrierError> {
        let fails = self.fails(conn)?;
        match self.links.get_mut(&conn) {
            None => unreachable!(),
            Some(link) => link.send(direction, bytes, fails),
        }
    }

    fn carry(
        &mut self,
        conn: u32,
        direction: Direction,
        most: usize,
        out: &mut Vec<u8>,
    ) -> Result<usize, CarrierError> {
        let fails = self.fails(conn)?;
        let change = self.change_in(conn, direction);
        let count = most.min(self.plan.most.max(1));
        let alloc = self.alloc;
        match self.links.get_mut(&conn) {
            None => unreachable!(),
            Some(link) if fails => link.stick(direction),
            Some(link) => link.bring(alloc, direction, count, change, out),
        }
    }

    fn cut(&mut self, conn: u32) {
        match self.links.get_mut(&conn) {
            None => unreachable!(),
            Some(link) => link.cut(),
        }
    }
}
