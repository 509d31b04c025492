//! Values of rows as Rust's own, by their column's type (MS-TDS 2.2.5.5): of the bytes that a reader of rows finds for each.
//!
//! Not proved, and small. Each has exactly what was sent. A text in a code page other than 1252 and UTF-8, a UDT, and what isn't the
//! bytes of its type are given as bytes.

/// A column's type: its byte, the size that it declares, and what else it has, or 0.
#[derive(Clone, Copy, Default, PartialEq, Eq, Debug)]
pub struct Type {
    pub kind: u8,
    pub size: u32,
    pub precision: u8,
    pub scale: u8,
    pub collation: [u8; 5],
}

/// `number` divided by ten to the power of `scale`: a money's has 4.
#[derive(Clone, Copy, PartialEq, Eq, Debug)]
pub struct Decimal {
    pub number: i128,
    pub scale: u8,
}

impl std::fmt::Display for Decimal {
    fn fmt(&self, f: &mut std::fmt::Formatter<'_>) -> std::fmt::Result {
        let (scale, digits) = (usize::from(self.scale), self.number.unsigned_abs().to_string());
        let digits = format!("{digits:0>width$}", width = scale + 1);
        let (whole, part) = digits.split_at(digits.len() - scale);
        let sign = if self.number < 0 { "-" } else { "" };
        write!(f, "{sign}{whole}{}{part}", if scale == 0 { "" } else { "." })
    }
}

/// A day, counted from 1 January of the year 1.
#[derive(Clone, Copy, PartialEq, Eq, PartialOrd, Ord, Debug)]
pub struct Day(pub i32);

impl Day {
    /// Its year, month and day of the month, by the calendar that goes on to all years (that of ISO 8601).
    pub fn date(self) -> (i32, u8, u8) {
        // Counted from 1 March of the year 0, so that the day of a leap year is the last of a year.
        let days = i64::from(self.0) + 306;
        let era = days.div_euclid(146_097);
        let of_era = days.rem_euclid(146_097);
        let year = (of_era - of_era / 1460 + of_era / 36_524 - of_era / 146_096) / 365;
        let of_year = of_era - (365 * year + year / 4 - year / 100);
        let month = (5 * of_year + 2) / 153;
        let day = of_year - (153 * month + 2) / 5 + 1;
        let month = if month < 10 { month + 3 } else { month - 9 };
        ((400 * era + year + i64::from(month <= 2)) as i32, month as u8, day as u8)
    }
}

/// A value. Times of a day are counted in units of 100 nanoseconds.
#[derive(Clone, PartialEq, Debug)]
pub enum Value {
    Null,
    Integer(i64),
    Bit(bool),
    Real(f32),
    Float(f64),
    /// A decimal, a numeric, a money.
    Decimal(Decimal),
    Date(Day),
    Time(u64),
    /// A datetime2; a smalldatetime.
    DateTime(Day, u64),
    /// The day and the time are those of UTC; how many minutes the local one is ahead.
    DateTimeOffset(Day, u64, i16),
    /// A datetime: its time is counted in three-hundredths of a second.
    OldDateTime(Day, u32),
    /// As it is written: the first eight bytes of what was sent stand the other way round.
    Guid([u8; 16]),
    Text(String),
    /// UTF-16 that is none: a half of a pair stands alone.
    Units(Vec<u16>),
    Bytes(Vec<u8>),
}

/// From 1 January of the year 1 to that of 1900.
const OLD_DAY_ONE: i32 = 693_595;

/// The value of these bytes; `Null` where there are none.
pub fn value_of(column: &Type, data: Option<&[u8]>) -> Value {
    let Some(data) = data else { return Value::Null };
    if column.kind == 0x1F {
        return Value::Null;
    }
    read(column, data).unwrap_or_else(|| Value::Bytes(data.to_vec()))
}

fn read(column: &Type, data: &[u8]) -> Option<Value> {
    Some(match column.kind {
        0x26 | 0x30 | 0x34 | 0x38 | 0x7F => Value::Integer(integer(data)?),
        0x32 | 0x68 => Value::Bit(*data.first()? != 0),
        0x3B | 0x3E | 0x6D if data.len() == 4 => Value::Real(f32::from_le_bytes(data.try_into().ok()?)),
        0x3B | 0x3E | 0x6D => Value::Float(f64::from_le_bytes(data.try_into().ok()?)),
        0x3C | 0x6E | 0x7A => Value::Decimal(money(data)?),
        0x37 | 0x3F | 0x6A | 0x6C => Value::Decimal(decimal(column, data)?),
        0x3A | 0x3D | 0x6F => old_datetime(data)?,
        0x28 => Value::Date(day(data)?),
        0x29 => Value::Time(time(column, data)?),
        0x2A => Value::DateTime(day(behind(data, 3)?)?, time(column, before(data, 3)?)?),
        0x2B => {
            let (of_utc, offset) = (before(data, 2)?, i16::from_le_bytes(behind(data, 2)?.try_into().ok()?));
            Value::DateTimeOffset(day(behind(of_utc, 3)?)?, time(column, before(of_utc, 3)?)?, offset)
        }
        0x24 => Value::Guid(guid(data)?),
        0x23 | 0x27 | 0x2F | 0xA7 | 0xAF => Value::Text(text(column, data)?),
        0x63 | 0xE7 | 0xEF => wide(data)?,
        0xF1 => wide(data.strip_prefix(&[0xFF, 0xFE]).unwrap_or(data))?,
        0x62 => variant(data)?,
        _ => return None,
    })
}

fn before(data: &[u8], count: usize) -> Option<&[u8]> {
    data.get(..data.len().checked_sub(count)?)
}

fn behind(data: &[u8], count: usize) -> Option<&[u8]> {
    data.get(data.len().checked_sub(count)?..)
}

/// A number of at most 16 bytes, without a sign.
fn unsigned(data: &[u8]) -> Option<u128> {
    let mut bytes = [0; 16];
    bytes.get_mut(..data.len())?.copy_from_slice(data);
    Some(u128::from_le_bytes(bytes))
}

fn integer(data: &[u8]) -> Option<i64> {
    Some(match *data {
        // One byte has no sign (MS-TDS 2.2.5.5.1.2).
        [byte] => i64::from(byte),
        [a, b] => i64::from(i16::from_le_bytes([a, b])),
        [a, b, c, d] => i64::from(i32::from_le_bytes([a, b, c, d])),
        _ => i64::from_le_bytes(data.try_into().ok()?),
    })
}

fn money(data: &[u8]) -> Option<Decimal> {
    let number = match *data {
        [a, b, c, d] => i128::from(i32::from_le_bytes([a, b, c, d])),
        // The higher half comes first.
        [a, b, c, d, e, f, g, h] => i128::from(i64::from_le_bytes([e, f, g, h, a, b, c, d])),
        _ => return None,
    };
    Some(Decimal { number, scale: 4 })
}

fn decimal(column: &Type, data: &[u8]) -> Option<Decimal> {
    let (sign, rest) = data.split_first()?;
    let number = i128::try_from(unsigned(rest)?).ok()?;
    Some(Decimal { number: if *sign == 0 { -number } else { number }, scale: column.scale })
}

fn day(data: &[u8]) -> Option<Day> {
    Some(Day(i32::try_from(unsigned(data)?).ok()?))
}

fn time(column: &Type, data: &[u8]) -> Option<u64> {
    let units = u64::try_from(unsigned(data)?).ok()?;
    units.checked_mul(10u64.checked_pow(7u32.checked_sub(column.scale.into())?)?)
}

fn old_datetime(data: &[u8]) -> Option<Value> {
    Some(match *data {
        [a, b, c, d] => {
            let (days, minutes) = (u16::from_le_bytes([a, b]), u16::from_le_bytes([c, d]));
            Value::DateTime(Day(OLD_DAY_ONE + i32::from(days)), u64::from(minutes) * 600_000_000)
        }
        [a, b, c, d, e, f, g, h] => {
            Value::OldDateTime(Day(OLD_DAY_ONE.checked_add(i32::from_le_bytes([a, b, c, d]))?), u32::from_le_bytes([e, f, g, h]))
        }
        _ => return None,
    })
}

fn guid(data: &[u8]) -> Option<[u8; 16]> {
    let mut bytes: [u8; 16] = data.try_into().ok()?;
    bytes[..4].reverse();
    bytes[4..6].reverse();
    bytes[6..8].reverse();
    Some(bytes)
}

/// What stands at 80 to 9F of code page 1252; five have nothing there.
const OF_1252: [char; 32] = [
    '€', '\u{81}', '‚', 'ƒ', '„', '…', '†', '‡', 'ˆ', '‰', 'Š', '‹', 'Œ', '\u{8D}', 'Ž', '\u{8F}', '\u{90}', '‘', '’', '“', '”', '•', '–',
    '—', '˜', '™', 'š', '›', 'œ', '\u{9D}', 'ž', 'Ÿ',
];

fn text(column: &Type, data: &[u8]) -> Option<String> {
    let [a, b, c, d, order] = column.collation;
    let flags = u32::from_le_bytes([a, b, c, d]);
    if flags & 1 << 26 != 0 {
        return String::from_utf8(data.to_vec()).ok();
    }
    // Sort orders, and languages of Western Europe's and the Americas' locales (MS-TDS 2.2.5.1.2).
    let is_1252 = match order {
        0 => matches!(flags & 0x3FF, 0x03 | 0x06 | 0x07 | 0x09 | 0x0A | 0x0B | 0x0C | 0x0F | 0x10 | 0x13 | 0x14 | 0x16 | 0x1D | 0x38),
        _ => matches!(order, 50..=54 | 71..=75 | 183..=186 | 210..=217),
    };
    let of_1252 = |byte: &u8| if (0x80..0xA0).contains(byte) { OF_1252[usize::from(byte - 0x80)] } else { char::from(*byte) };
    (is_1252 || data.is_ascii()).then(|| data.iter().map(of_1252).collect())
}

fn wide(data: &[u8]) -> Option<Value> {
    if data.len() % 2 == 1 {
        return None;
    }
    let units: Vec<u16> = data.chunks_exact(2).map(|it| u16::from_le_bytes([it[0], it[1]])).collect();
    Some(String::from_utf16(&units).map_or_else(|_| Value::Units(units), Value::Text))
}

/// A base type's byte, how many bytes of properties it has, these, and the value (2.2.5.5.3).
fn variant(data: &[u8]) -> Option<Value> {
    let (kind, count) = (*data.first()?, usize::from(*data.get(1)?));
    let (own, value) = (data.get(2..2 + count)?, data.get(2 + count..)?);
    let base = match kind {
        0xA7 | 0xAF | 0xE7 | 0xEF => Type { kind, collation: own.get(..5)?.try_into().ok()?, ..Type::default() },
        0x6A | 0x6C => Type { kind, precision: *own.first()?, scale: *own.get(1)?, ..Type::default() },
        0x29..=0x2B => Type { kind, scale: *own.first()?, ..Type::default() },
        _ => Type { kind, ..Type::default() },
    };
    Some(value_of(&base, Some(value)))
}

/// The value of parts, each behind a count of four bytes, as a (max) type's place has them (2.2.5.2.3). None where it isn't one.
pub fn joined_parts(mut data: &[u8]) -> Option<Vec<u8>> {
    let mut whole = Vec::with_capacity(data.len());
    while !data.is_empty() {
        let count = usize::try_from(u32::from_le_bytes(data.get(..4)?.try_into().ok()?)).ok()?;
        whole.extend_from_slice(data.get(4..)?.get(..count)?);
        data = &data[4 + count..];
    }
    Some(whole)
}
