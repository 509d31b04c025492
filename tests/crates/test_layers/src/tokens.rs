//! Tokens as they are read of a packet's data.
//!
//! ```text
//! read BYTES     what `Debug` writes of the tokens and of the numbers of the faults, and how many
//!                columns are known then. They are known to the next read
//! spell          the bytes that spell the tokens which were read last
//! walk N BYTES   reads with N columns known, all rows at the front at once before each token: how many
//!                rows there are; and where there are any how many are announced, their bytes, their
//!                values and how many bytes are left; then the token, behind `env` where it is one
//! fields BYTES   the fields of a lent error
//! split BYTES    the two columns that lent columns are split into, and how many are owned
//! ```

use crate::case::{Case, Layer, Stop};
use crate::said::Said;
use crate::spelling::say_tokens;
use crate::words::Words;
use std::alloc::Global;
use tds_token::{ColumnRef, Columns, MessageRef, Rows, Token, TokenRef, Tokens};

#[derive(Drop)]
struct TokenCalls {
    alloc: Global,
    bytes: Vec<u8>,
    columns: Columns,
    /// What was read last, and the numbers of the faults.
    tokens: Vec<Token>,
    faults: Vec<u8>,
}

/// Plays a case.
pub fn play(alloc: Global, case: &mut Case<'_>) -> Result<(), Stop> {
    let mut calls = TokenCalls {
        alloc,
        bytes: Vec::new(alloc),
        columns: Columns::none(),
        tokens: Vec::new(alloc),
        faults: Vec::new(alloc),
    };
    case.play(alloc, &mut calls)
}

impl Layer for TokenCalls {
    fn call(&mut self, words: &mut Words<'_>, said: &mut Said) -> Result<(), Stop> {
        match words.next() {
            "read" => self.read(words, said),
            "spell" => say_tokens(self.alloc, self.tokens.as_slice(), said),
            "walk" => self.walk(words, said),
            "fields" => self.fields(words, said),
            "split" => self.split(words, said),
            _ => Err(Stop::Unread),
        }
    }
}

impl TokenCalls {
    fn read(&mut self, words: &mut Words<'_>, said: &mut Said) -> Result<(), Stop> {
        words.bytes(&mut self.bytes)?;
        self.tokens.clear();
        self.faults.clear();
        let mut reading = Tokens::new(self.bytes.as_slice(), self.columns);
        read(self.alloc, &mut reading, &mut self.tokens, &mut self.faults)?;
        self.columns = reading.columns();
        let text = format!(in self.alloc; "({:?}, {:?})", self.tokens, self.faults)?;
        said.word(text.as_str())?;
        said.word("columns")?;
        said.number_or_none(self.columns.count().map(u64::from))?;
        Ok(())
    }

    fn walk(&mut self, words: &mut Words<'_>, said: &mut Said) -> Result<(), Stop> {
        let columns = match words.small()? {
            0 => Columns::none(),
            count => Columns::of(count).ok_or(Stop::Unread)?,
        };
        words.bytes(&mut self.bytes)?;
        walk(
            self.alloc,
            &mut Tokens::new(self.bytes.as_slice(), columns),
            said,
        )
    }

    fn fields(&mut self, words: &mut Words<'_>, said: &mut Said) -> Result<(), Stop> {
        words.bytes(&mut self.bytes)?;
        match Tokens::new(self.bytes.as_slice(), Columns::none()).next() {
            Some(Ok(TokenRef::Error(message))) => say_fields(&message, said),
            _ => Err(Stop::Unread),
        }
    }

    fn split(&mut self, words: &mut Words<'_>, said: &mut Said) -> Result<(), Stop> {
        words.bytes(&mut self.bytes)?;
        let Some(Ok(TokenRef::Columns(columns))) = Tokens::new(
            self.bytes.as_slice(),
            Columns::none(),
        ).next() else {
            return Err(Stop::Unread);
        };
        let (first, Some(others)) = columns.split_first() else {
            return Err(Stop::Unread);
        };
        said.number(u64::from(columns.count()))?;
        say_column(first, said)?;
        said.numbered("left", u64::from(others.count()))?;
        let owned = others.own(self.alloc)?.into_vec();
        said.numbered("owned", owned.len() as u64)?;
        let (second, none) = others.split_first();
        say_column(second, said)?;
        said.word(if none.is_none() { "last" } else { "more" })?;
        Ok(())
    }
}

/// Reads until there is nothing more, behind a fault too.
pub fn read(
    alloc: Global,
    reading: &mut Tokens<'_>,
    tokens: &mut Vec<Token>,
    faults: &mut Vec<u8>,
) -> Result<(), Stop> {
    for _ in 0..100 {
        match reading.next() {
            Some(Ok(token)) => tokens.push(token.own(alloc)?)?,
            Some(Err(fault)) => faults.push(fault.number())?,
            None => break,
        }
    }
    Ok(())
}

fn walk(alloc: Global, reading: &mut Tokens<'_>, said: &mut Said) -> Result<(), Stop> {
    for _ in 0..100 {
        let rows = reading.rows();
        said.numbered("rows", rows.len() as u64)?;
        if rows.len() > 0 {
            say_rows(rows, said)?;
            said.numbered("left", reading.left().len() as u64)?;
        }
        match reading.next() {
            Some(Ok(token)) => say_token(alloc, &token, said)?,
            Some(Err(fault)) => said.numbered("fault", u64::from(fault.number()))?,
            None => break,
        }
    }
    Ok(())
}

fn say_rows(rows: Rows<'_>, said: &mut Said) -> Result<(), Stop> {
    let most = rows.size_hint().1;
    said.number_or_none(most.map(|count| count as u64))?;
    said.bytes(rows.bytes())?;
    for row in rows {
        for value in row.values() {
            said.signed(value)?;
        }
    }
    Ok(())
}

fn say_token(alloc: Global, token: &TokenRef<'_>, said: &mut Said) -> Result<(), Stop> {
    if token.is_env() {
        said.word("env")?;
    }
    let owned = token.own(alloc)?;
    let text = format!(in alloc; "{owned:?}")?;
    said.word(text.as_str())?;
    Ok(())
}

fn say_fields(message: &MessageRef<'_>, said: &mut Said) -> Result<(), Stop> {
    said.signed(message.number())?;
    said.number(u64::from(message.state()))?;
    said.number(u64::from(message.class()))?;
    said.signed(message.line())?;
    said.word("text")?;
    said.bytes(message.text().bytes())?;
    said.word("server")?;
    said.bytes(message.server().bytes())?;
    said.word("procedure")?;
    said.bytes(message.procedure().bytes())?;
    Ok(())
}

/// Says a column's numbers and its name.
fn say_column(column: ColumnRef<'_>, said: &mut Said) -> Result<(), Stop> {
    said.number(u64::from(column.user_type))?;
    said.number(u64::from(column.flags))?;
    said.bytes(column.name.bytes())?;
    Ok(())
}
