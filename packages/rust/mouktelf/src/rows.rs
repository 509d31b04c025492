//! Where the values of rows stand, and these as Rust's own: of the tokens that a client hears or a walk finds.

use crate::values::{joined_parts, value_of, Type, Value};
use crate::{raw, Fault};

/// Where a value's own bytes stand in a row's token, from its first byte on: of a value in parts all its parts.
pub use crate::raw::RowPlace;

/// A column: its name, its type, whether its values come in parts, and what else is told of it (MS-TDS 2.2.7.4).
#[derive(Clone, PartialEq, Eq, Debug)]
pub struct Column {
    pub name: String,
    pub kind: Type,
    pub is_in_parts: bool,
    pub flags: u16,
    pub user_type: u32,
}

/// The columns of a result.
#[derive(Clone, Debug)]
pub struct Columns {
    raw: Vec<raw::Column>,
    columns: Vec<Column>,
}

/// The most columns that a result has.
const MOST: usize = 4096;

fn done(answer: u8) -> Result<(), Fault> {
    match answer {
        0 | 2 => Ok(()),
        1 => Err(Fault::NoPacket),
        number => Err(Fault::of(number)),
    }
}

impl Columns {
    /// The columns that a COLMETADATA describes, from its first byte on; `None` where it describes none, and those before it stay.
    /// `encryption` says that the login acknowledged column encryption.
    pub fn of(token: &[u8], encryption: bool) -> Result<Option<Columns>, Fault> {
        let most = token.get(1..3).map_or(0, |it| usize::from(u16::from_le_bytes([it[0], it[1]]))).min(MOST);
        let (mut found, mut count, mut taken) = (vec![raw::Column::default(); most], 0, 0);
        // SAFETY: each pointer and length is that of one slice or vector.
        let answer = unsafe { raw::tds_columns(token.as_ptr(), token.len(), encryption.into(), found.as_mut_ptr(), most, &mut count, &mut taken) };
        done(answer)?;
        found.truncate(count);
        let columns = found.iter().map(|it| column(it, token)).collect();
        Ok((answer == 0).then_some(Columns { raw: found, columns }))
    }

    pub fn columns(&self) -> &[Column] {
        &self.columns
    }

    /// Where each value stands in the row that these bytes begin with, a ROW or an NBCROW: `places` has one for each. How many bytes
    /// the row has. It allocates nothing where `places` has room.
    pub fn places(&self, row: &[u8], places: &mut Vec<RowPlace>) -> Result<usize, Fault> {
        let mut taken = 0;
        places.resize(self.raw.len(), RowPlace::default());
        // SAFETY: each pointer and length is that of one slice or vector.
        done(unsafe { raw::tds_row_places(self.raw.as_ptr(), self.raw.len(), row.as_ptr(), row.len(), places.as_mut_ptr(), places.len(), &mut taken) })?;
        Ok(taken)
    }

    /// The same of the rows that these bytes begin with, one behind the other, from the first of these bytes on, row by row, at the front
    /// of `places`: how many rows these are, and how many bytes they have. Behind them stands nothing, another token, a row that isn't
    /// whole, or one more than there is room for.
    pub fn places_of_rows(&self, bytes: &[u8], places: &mut [RowPlace]) -> Result<(usize, usize), Fault> {
        let (mut rows, mut taken) = (0, 0);
        // SAFETY: each pointer and length is that of one slice or vector.
        let answer = unsafe {
            raw::tds_places_of_rows(
                self.raw.as_ptr(), self.raw.len(), bytes.as_ptr(), bytes.len(), places.as_mut_ptr(), places.len(), &mut rows, &mut taken,
            )
        };
        if matches!(answer, 0 | 1 | 71 | 74) { Ok((rows, taken)) } else { Err(Fault::of(answer)) }
    }

    /// Of bytes that begin with the value of the column `first` of a row, where each value stands that is whole, from the first of these
    /// bytes on; gives which column's value comes next, and where it begins. `nulls` is the null bitmap of an NBCROW. Those places of
    /// `places` are written that are these columns'.
    pub fn come(&self, first: usize, nulls: &[u8], bytes: &[u8], places: &mut Vec<RowPlace>) -> Result<(usize, usize), Fault> {
        let (mut next, mut taken) = (0, 0);
        places.resize(self.raw.len(), RowPlace::default());
        // SAFETY: each pointer and length is that of one slice or vector.
        let answer = unsafe {
            raw::tds_row_values(
                self.raw.as_ptr(), self.raw.len(), first, nulls.as_ptr(), nulls.len(), bytes.as_ptr(), bytes.len(), places.as_mut_ptr(),
                places.len(), &mut next, &mut taken,
            )
        };
        if answer > 1 { Err(Fault::of(answer)) } else { Ok((next, taken)) }
    }

    /// The values of a row.
    pub fn values(&self, row: &[u8]) -> Result<Vec<Value>, Fault> {
        let mut places = Vec::with_capacity(self.raw.len());
        self.places(row, &mut places)?;
        Ok(self.columns.iter().zip(&places).map(|(column, place)| value_at(column, row, place)).collect())
    }
}

/// The value that stands at a place of a row.
pub fn value_at(column: &Column, row: &[u8], place: &RowPlace) -> Value {
    let own = (place.null == 0).then(|| &row[place.start as usize..(place.start + place.length) as usize]);
    match own {
        Some(parts) if column.is_in_parts => joined_parts(parts).map_or(Value::Null, |whole| value_of(&column.kind, Some(&whole))),
        other => value_of(&column.kind, other),
    }
}

fn column(it: &raw::Column, token: &[u8]) -> Column {
    let name = &token[it.name.start as usize..(it.name.start + it.name.length) as usize];
    let units: Vec<u16> = name.chunks_exact(2).map(|it| u16::from_le_bytes([it[0], it[1]])).collect();
    Column {
        name: String::from_utf16_lossy(&units),
        kind: Type { kind: it.kind, size: it.size, precision: it.precision, scale: it.scale, collation: it.collation },
        is_in_parts: it.shape.form == 5,
        flags: it.flags,
        user_type: it.user_type,
    }
}

/// A value in parts as its bytes come, from its first one on.
#[derive(Clone, Copy, Default, PartialEq, Eq, Debug)]
pub struct Parts {
    raw: raw::Parts,
    answer: Option<u8>,
}

impl Parts {
    pub fn is_over(&self) -> bool {
        matches!(self.answer, Some(0 | 2))
    }

    pub fn is_null(&self) -> bool {
        self.answer == Some(2)
    }

    /// What comes next of it, up to the end of a part: its own bytes among these, and how many of these are done with. Call it again
    /// with the bytes behind them, until there are none or it is over.
    pub fn next<'a>(&mut self, bytes: &'a [u8]) -> (&'a [u8], usize) {
        let (mut start, mut count, mut taken) = (0, 0, 0);
        // SAFETY: the pointer and the length are that of one slice.
        let answer = unsafe { raw::tds_parts_next(&mut self.raw, bytes.as_ptr(), bytes.len(), &mut start, &mut count, &mut taken) };
        self.answer = Some(answer);
        (&bytes[start..start + count], taken)
    }
}
