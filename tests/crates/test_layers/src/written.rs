//! Tokens by their counts, as they are written.
//!
//! A TOKEN is one of these. A text has N letters `x`, a column's name too.
//!
//! ```text
//! begin N, commit N, rollback N, reset    an ENVCHANGE
//! info N N N, error N N N                 the lengths of the text, the server and the procedure
//! columns N N                             how many, and the lengths of their names
//! row N                                   so many values of -1
//! status N                                a RETURNSTATUS
//! done BYTE BYTE                          its status, the high byte first
//! ```
//!
//! ```text
//! fits TOKEN     yes or no
//! again TOKEN    how many bytes it has, whether it is read as it was written, and how many columns are
//!                known then. They are known to the next one
//! numbers N N    of such columns: how many are lent and owned, and the numbers of the last
//! values N       what a row of so many values gives back
//! units BYTES    what a text of these units gives back
//! ```

use crate::case::{Case, Layer, Stop};
use crate::said::Said;
use crate::tokens::read;
use crate::words::Words;
use std::alloc::Global;
use tds_token::{
    Column, ColumnList, Columns, EnvChange, Message, Row, Text, Token, TokenRef, Tokens, laws,
    put_token,
};

#[derive(Drop)]
struct Written {
    alloc: Global,
    columns: Columns,
}

/// Plays a case.
pub fn play(alloc: Global, case: &mut Case<'_>) -> Result<(), Stop> {
    let mut written = Written {
        alloc,
        columns: Columns::none(),
    };
    case.play(alloc, &mut written)
}

impl Layer for Written {
    fn call(&mut self, words: &mut Words<'_>, said: &mut Said) -> Result<(), Stop> {
        match words.next() {
            "fits" => {
                let fits = token(self.alloc, words)?.fits();
                Ok(said.word(if fits { "yes" } else { "no" })?)
            }
            "again" => self.again(words, said),
            "numbers" => say_numbers(self.alloc, words, said),
            "values" => say_values(self.alloc, words, said),
            "units" => say_units(self.alloc, words, said),
            _ => Err(Stop::Unread),
        }
    }
}

impl Written {
    fn again(&mut self, words: &mut Words<'_>, said: &mut Said) -> Result<(), Stop> {
        let token = token(self.alloc, words)?;
        let mut bytes = Vec::new(self.alloc);
        put(&mut bytes, &token)?;
        said.number(bytes.len() as u64)?;
        let mut reading = Tokens::new(bytes.as_slice(), self.columns);
        let is_same = is_read(self.alloc, &mut reading, &token)?;
        said.word(if is_same { "the same" } else { "another" })?;
        self.columns = reading.columns();
        said.number_or_none(self.columns.count().map(u64::from))?;
        Ok(())
    }
}

/// Appends a token that fits.
fn put(out: &mut Vec<u8>, token: &Token) -> Result<(), Stop> {
    if !token.fits() {
        return Err(Stop::Unread);
    }
    put_token(out, token)?;
    Ok(())
}

/// Whether this token is read, and nothing else.
fn is_read(alloc: Global, reading: &mut Tokens<'_>, token: &Token) -> Result<bool, Stop> {
    let mut tokens = Vec::new(alloc);
    let mut faults = Vec::new(alloc);
    read(alloc, reading, &mut tokens, &mut faults)?;
    let found = format!(in alloc; "{tokens:?} {faults:?}")?;
    let wanted = format!(in alloc; "[{token:?}] []")?;
    Ok(found.as_str() == wanted.as_str())
}

/// A count of at most 65,535.
fn count(words: &mut Words<'_>) -> Result<u16, Stop> {
    match u16::try_from(words.number()?) {
        Ok(count) => Ok(count),
        Err(_) => Err(Stop::Unread),
    }
}

/// The token of these words.
fn token(alloc: Global, words: &mut Words<'_>) -> Result<Token, Stop> {
    match words.next() {
        "begin" => Ok(Token::Env(EnvChange::Begin(words.number()?))),
        "commit" => Ok(Token::Env(EnvChange::Commit(words.number()?))),
        "rollback" => Ok(Token::Env(EnvChange::Rollback(words.number()?))),
        "reset" => Ok(Token::Env(EnvChange::ResetDone)),
        "info" => Ok(Token::Info(message(alloc, words)?)),
        "error" => Ok(Token::Error(message(alloc, words)?)),
        "columns" => Ok(Token::Columns(columns(alloc, words)?)),
        "row" => Ok(Token::Row(row(alloc, words)?)),
        "status" => status(words.next()),
        "done" => done(words),
        _ => Err(Stop::Unread),
    }
}

fn status(word: &str) -> Result<Token, Stop> {
    match word.parse::<i32>() {
        Ok(value) => Ok(Token::ReturnStatus(value)),
        Err(_) => Err(Stop::Unread),
    }
}

fn done(words: &mut Words<'_>) -> Result<Token, Stop> {
    let high = words.byte()?;
    let low = words.byte()?;
    Ok(Token::Done {
        status: u16::from_be_bytes([high, low]),
        cur_cmd: 0,
        rows: 0,
    })
}

/// A text of so many letters.
fn text(alloc: Global, length: u16) -> Result<Text, Stop> {
    let mut units = Vec::new(alloc);
    for _ in 0..length {
        units.push(0x78)?;
    }
    Ok(Text::new(units))
}

fn message(alloc: Global, words: &mut Words<'_>) -> Result<Message, Stop> {
    let lengths = (count(words)?, count(words)?, count(words)?);
    Ok(Message {
        number: 1,
        state: 1,
        class: 0,
        text: text(alloc, lengths.0)?,
        server: text(alloc, lengths.1)?,
        procedure: text(alloc, lengths.2)?,
        line: 0,
    })
}

fn columns(alloc: Global, words: &mut Words<'_>) -> Result<ColumnList, Stop> {
    let many = count(words)?;
    let length = count(words)?;
    let mut columns = Vec::new(alloc);
    for _ in 0..many {
        columns.push(Column {
            user_type: 1,
            flags: 2,
            name: text(alloc, length)?,
        })?;
    }
    Ok(ColumnList::new(columns))
}

fn row(alloc: Global, words: &mut Words<'_>) -> Result<Row, Stop> {
    let mut values = Vec::new(alloc);
    for _ in 0..count(words)? {
        values.push(-1)?;
    }
    Ok(Row::new(values))
}

fn say_numbers(alloc: Global, words: &mut Words<'_>, said: &mut Said) -> Result<(), Stop> {
    let mut bytes = Vec::new(alloc);
    put(&mut bytes, &Token::Columns(columns(alloc, words)?))?;
    say_last(alloc, bytes.as_slice(), said)
}

fn say_last(alloc: Global, bytes: &[u8], said: &mut Said) -> Result<(), Stop> {
    let Some(Ok(TokenRef::Columns(lent))) = Tokens::new(bytes, Columns::none()).next() else {
        return Err(Stop::Unread);
    };
    said.numbered("lent", u64::from(lent.count()))?;
    let owned = lent.own(alloc)?.into_vec();
    said.numbered("owned", owned.len() as u64)?;
    if let Some(last) = owned.as_slice().last() {
        said.number(u64::from(last.user_type))?;
        said.number(u64::from(last.flags))?;
        said.number(last.name.units().len() as u64)?;
    }
    Ok(())
}

fn say_values(alloc: Global, words: &mut Words<'_>, said: &mut Said) -> Result<(), Stop> {
    let values = row(alloc, words)?.into_vec();
    for value in values.iter() {
        said.signed(*value)?;
    }
    Ok(())
}

fn say_units(alloc: Global, words: &mut Words<'_>, said: &mut Said) -> Result<(), Stop> {
    let low = words.byte()?;
    let high = words.byte()?;
    let text = Text::new(vec![in alloc; u16::from_le_bytes([low, high])]?);
    laws::one_spelling();
    said.number(text.units().len() as u64)?;
    for unit in text.into_units().iter() {
        said.bytes(&unit.to_le_bytes())?;
    }
    Ok(())
}
