//! What bytes are, by the tables of the wire alone. Nothing of the product is called here.

/// Bytes that are read field by field.
#[derive(Clone, Copy)]
struct Fields<'a> {
    rest: &'a [u8],
}

impl<'a> Fields<'a> {
    fn byte(&mut self) -> Option<u8> {
        let [first, rest @ ..] = self.rest else {
            return None;
        };
        self.rest = rest;
        Some(*first)
    }

    fn bytes(&mut self, count: usize) -> Option<&'a [u8]> {
        if count > self.rest.len() {
            return None;
        }
        let (front, rest) = self.rest.split_at(count);
        self.rest = rest;
        Some(front)
    }

    /// A number of two bytes, the low one first.
    fn count(&mut self) -> Option<usize> {
        let [low, high, rest @ ..] = self.rest else {
            return None;
        };
        self.rest = rest;
        Some(usize::from(*low) + 256 * usize::from(*high))
    }

    /// A number of eight bytes, the low one first.
    fn descriptor(&mut self) -> Option<u64> {
        let [a, b, c, d, e, f, g, h, rest @ ..] = self.rest else {
            return None;
        };
        self.rest = rest;
        Some(u64::from_le_bytes([*a, *b, *c, *d, *e, *f, *g, *h]))
    }
}

/// What the bytes of a stream begin with.
#[derive(Clone, Copy)]
pub enum Front<'a> {
    /// Less than a packet.
    Waiting,
    /// A header with this fault.
    Wrong(u8),
    /// A packet, and what is behind it.
    Packet {
        kind: u8,
        status: u8,
        data: &'a [u8],
        rest: &'a [u8],
    },
}

/// The packet at the front of bytes, at packet size 512.
pub fn front_of(is_to_client: bool, bytes: &[u8]) -> Front<'_> {
    let [kind, status, high, low, _, _, _, _, ..] = bytes else {
        return Front::Waiting;
    };
    let length = 256 * usize::from(*high) + usize::from(*low);
    if !matches!(*kind, 0x01 | 0x04 | 0x06 | 0x0E) {
        return Front::Wrong(1);
    }
    if (*kind == 0x04) != is_to_client {
        return Front::Wrong(2);
    }
    if length < 8 {
        return Front::Wrong(3);
    }
    if length > 512 {
        return Front::Wrong(4);
    }
    if !is_status(is_to_client, *status) {
        return Front::Wrong(5);
    }
    if length == 8 && status & 1 == 0 {
        return Front::Wrong(6);
    }
    if length > bytes.len() {
        return Front::Waiting;
    }
    let (packet, rest) = bytes.split_at(length);
    Front::Packet {
        kind: *kind,
        status: *status,
        data: &packet[8..],
        rest,
    }
}

/// To the server the bits `01`, `02`, `08` and `10`, to the client `01` alone.
fn is_status(is_to_client: bool, status: u8) -> bool {
    match is_to_client {
        true => status <= 1,
        false => status & 0x1B == status,
    }
}

/// What a token is, as far as a client looks at it.
#[derive(Clone, Copy)]
pub enum Found {
    /// An ENVCHANGE's type and descriptor.
    Env(u8, u64),
    /// A DONE's status.
    Done(usize),
    /// So many columns.
    Columns(usize),
    Other,
}

/// The token at the front of bytes where so many columns are known, and what is behind it; or the
/// number of its fault.
pub fn token(columns: usize, bytes: &[u8]) -> Result<(Found, &[u8]), u8> {
    let mut fields = Fields { rest: bytes };
    let found = match fields.byte() {
        Some(0xAA) => message(&mut fields)?,
        Some(0xAB) => message(&mut fields)?,
        Some(0x79) => others(&mut fields, 4)?,
        Some(0x81) => columns_told(&mut fields)?,
        Some(0xD1) if columns == 0 => return Err(6),
        Some(0xD1) => others(&mut fields, columns.saturating_mul(4))?,
        Some(0xE3) => env_change(&mut fields)?,
        Some(0xFD) => done(&mut fields)?,
        _ => return Err(1),
    };
    Ok((found, fields.rest))
}

fn others(fields: &mut Fields<'_>, count: usize) -> Result<Found, u8> {
    match fields.bytes(count) {
        None => Err(2),
        Some(_) => Ok(Found::Other),
    }
}

/// A Length, and what it counts.
fn counted<'a>(fields: &mut Fields<'a>) -> Result<Fields<'a>, u8> {
    let length = fields.count().ok_or(2)?;
    let rest = fields.bytes(length).ok_or(2)?;
    Ok(Fields { rest })
}

fn message(fields: &mut Fields<'_>) -> Result<Found, u8> {
    let mut inner = counted(fields)?;
    match message_fields(&mut inner) {
        Some(()) if inner.rest.is_empty() => Ok(Found::Other),
        _ => Err(3),
    }
}

fn message_fields(fields: &mut Fields<'_>) -> Option<()> {
    fields.bytes(6)?;
    let text = fields.count()?;
    fields.bytes(text.saturating_mul(2))?;
    let server = fields.byte()?;
    fields.bytes(2 * usize::from(server))?;
    let procedure = fields.byte()?;
    fields.bytes(2 * usize::from(procedure))?;
    fields.bytes(4)?;
    Some(())
}

fn columns_told(fields: &mut Fields<'_>) -> Result<Found, u8> {
    let count = fields.count().ok_or(2)?;
    if count < 1 || count > 16 {
        return Err(7);
    }
    for _ in 0..count {
        fields.bytes(6).ok_or(2)?;
        if fields.byte().ok_or(2)? != 0x38 {
            return Err(7);
        }
        let name = fields.byte().ok_or(2)?;
        if name > 10 {
            return Err(7);
        }
        fields.bytes(2 * usize::from(name)).ok_or(2)?;
    }
    Ok(Found::Columns(count))
}

fn env_change(fields: &mut Fields<'_>) -> Result<Found, u8> {
    let mut inner = counted(fields)?;
    let kind = inner.byte().ok_or(3)?;
    let (new, old) = match kind {
        8 => (8, 0),
        9 => (0, 8),
        10 => (0, 8),
        18 => (0, 0),
        _ => return Err(4),
    };
    let first = env_value(&mut inner, new)?;
    let second = env_value(&mut inner, old)?;
    match inner.rest.is_empty() {
        true => Ok(Found::Env(kind, first | second)),
        false => Err(3),
    }
}

/// A value of 0 or 8 bytes: none, or a descriptor.
fn env_value(fields: &mut Fields<'_>, length: u8) -> Result<u64, u8> {
    if fields.byte().ok_or(3)? != length {
        return Err(4);
    }
    if length == 0 {
        return Ok(0);
    }
    match fields.descriptor().ok_or(3)? {
        0 => Err(4),
        descriptor => Ok(descriptor),
    }
}

fn done(fields: &mut Fields<'_>) -> Result<Found, u8> {
    let status = fields.count().ok_or(2)?;
    let is_known = status <= 0x0137 && status & 0x0037 | status & 0x0100 == status;
    if !is_known || status & 0x0021 == 0x0021 {
        return Err(5);
    }
    fields.bytes(10).ok_or(2)?;
    Ok(Found::Done(status))
}

/// The number of the fault of a whole message, or 0.
pub fn wrong_request(is_batch: bool, bytes: &[u8]) -> u8 {
    if bytes.len() < 22 {
        return 1;
    }
    let (headers, body) = bytes.split_at(22);
    if !headers.starts_with(&[22, 0, 0, 0]) {
        return 2;
    }
    if headers[4..10] != [18, 0, 0, 0, 2, 0] {
        return 3;
    }
    if headers[18..] != [1, 0, 0, 0] {
        return 4;
    }
    match is_batch {
        true if body.is_empty() || body.len() % 2 == 1 || body.len() > 4000 => 5,
        true => 0,
        false => wrong_transaction(body),
    }
}

fn wrong_transaction(body: &[u8]) -> u8 {
    match transaction(body) {
        Ok(()) => 0,
        Err(number) => number,
    }
}

fn transaction(body: &[u8]) -> Result<(), u8> {
    let mut fields = Fields { rest: body };
    let kind = fields.count().ok_or(1)?;
    match kind {
        5 => begun(&mut fields)?,
        7 | 8 => {
            zero(&mut fields, 8)?;
            match fields.byte().ok_or(1)? {
                0 => {}
                1 => begun(&mut fields)?,
                _ => return Err(9),
            }
        }
        _ => return Err(6),
    }
    match fields.rest.is_empty() {
        true => Ok(()),
        false => Err(10),
    }
}

/// What begins a transaction: an isolation level and an empty name.
fn begun(fields: &mut Fields<'_>) -> Result<(), u8> {
    if fields.byte().ok_or(1)? > 5 {
        return Err(7);
    }
    zero(fields, 8)
}

/// A byte that is 0, or else this fault.
fn zero(fields: &mut Fields<'_>, number: u8) -> Result<(), u8> {
    match fields.byte().ok_or(1)? {
        0 => Ok(()),
        _ => Err(number),
    }
}
