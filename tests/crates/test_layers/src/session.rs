//! A session by itself, and what an engine makes of a text: the batch language, or in the layer
//! `counting session` another engine.
//!
//! ```text
//! gives TEXT       the bytes of the tokens that the statements of a text give in this session; or none
//! counts TEXT      the text's length, and how many statements it has; or none
//! error NUMBER TEXT   the number of an error's token, and its bytes
//! tells begin|commit|rollback   the bytes of the tokens that this request of the session gives
//! tells renew commit|rollback   the same where it ends a transaction and begins the next one
//! begin, end, renew   the descriptors, or none
//! reset full|keep, set VALUE   the key is `a`
//! descriptor, get
//! settings         `none` where no key is set
//! ```

use crate::asks::units;
use crate::case::{Case, Layer, Stop};
use crate::counting::Counts;
use crate::said::Said;
use crate::spelling::say_tokens;
use crate::words::Words;
use std::alloc::Global;
use std::cell::Cell;
use tds_packet::Reset;
use tds_session::{
    Ending, Engine, ScriptEngine, Session, begin_transaction, commit_transaction, error_token,
    renew_transaction, roll_back_transaction,
};
use tds_token::Token;

/// A session, and the tokens that the last call gave.
#[derive(Drop)]
struct SessionCalls<E: Engine + Drop> {
    alloc: Global,
    engine: E,
    session: Session,
    tokens: Vec<Token>,
}

/// Plays a case.
pub fn play(alloc: Global, layer: &str, case: &mut Case<'_>) -> Result<(), Stop> {
    if layer == "counting session" {
        let steps = Cell::new(0);
        return play_on(alloc, Counts { steps: &steps }, case);
    }
    play_on(alloc, ScriptEngine, case)
}

fn play_on<E: Engine + Drop>(alloc: Global, engine: E, case: &mut Case<'_>) -> Result<(), Stop> {
    let mut calls = SessionCalls {
        alloc,
        engine,
        session: Session::new(),
        tokens: Vec::new(alloc),
    };
    case.play(alloc, &mut calls)
}

impl<E: Engine + Drop> Layer for SessionCalls<E> {
    fn call(&mut self, words: &mut Words<'_>, said: &mut Said) -> Result<(), Stop> {
        self.tokens.clear();
        match words.next() {
            "gives" => self.gives(words.rest(), said),
            "counts" => self.counts(words.rest(), said),
            "error" => self.error(words, said),
            "tells" => self.tells(words, said),
            word => session_call(&mut self.session, word, words, said),
        }
    }
}

impl<E: Engine + Drop> SessionCalls<E> {
    fn gives(&mut self, text: &str, said: &mut Said) -> Result<(), Stop> {
        let units = units(self.alloc, text)?;
        let Some(statements) = self.engine.parse(self.alloc, units.as_slice())? else {
            said.word("none")?;
            return Ok(());
        };
        self.run(statements.as_slice())?;
        say_tokens(self.alloc, self.tokens.as_slice(), said)
    }

    fn run(&mut self, statements: &[E::Stmt]) -> Result<(), Stop> {
        for statement in statements {
            let session = &mut self.session;
            self.engine
                .step(self.alloc, session, statement, &mut self.tokens)?;
        }
        Ok(())
    }

    fn counts(&mut self, text: &str, said: &mut Said) -> Result<(), Stop> {
        let units = units(self.alloc, text)?;
        said.number(units.len() as u64)?;
        match self.engine.parse(self.alloc, units.as_slice())? {
            Some(statements) => said.number(statements.len() as u64)?,
            None => said.word("none")?,
        }
        Ok(())
    }

    fn error(&mut self, words: &mut Words<'_>, said: &mut Said) -> Result<(), Stop> {
        let Ok(number) = u16::try_from(words.number()?) else {
            return Err(Stop::Unread);
        };
        let text = words.rest().as_bytes();
        let token = error_token(self.alloc, u32::from(number), text)?;
        if let Token::Error(message) = &token {
            said.signed(message.number)?;
        }
        self.tokens.push(token)?;
        say_tokens(self.alloc, self.tokens.as_slice(), said)
    }

    fn tells(&mut self, words: &mut Words<'_>, said: &mut Said) -> Result<(), Stop> {
        let alloc = self.alloc;
        let session = &mut self.session;
        let tokens = &mut self.tokens;
        match words.next() {
            "begin" => begin_transaction(alloc, session, tokens)?,
            "commit" => commit_transaction(alloc, session, tokens)?,
            "rollback" => roll_back_transaction(alloc, session, tokens)?,
            "renew" => renew_transaction(alloc, session, ending(words.next())?, tokens)?,
            _ => return Err(Stop::Unread),
        }
        say_tokens(alloc, self.tokens.as_slice(), said)
    }
}

fn ending(word: &str) -> Result<Ending, Stop> {
    match word {
        "commit" => Ok(Ending::Commit),
        "rollback" => Ok(Ending::Rollback),
        _ => Err(Stop::Unread),
    }
}

/// A call that takes no memory.
fn session_call(
    session: &mut Session,
    word: &str,
    words: &mut Words<'_>,
    said: &mut Said,
) -> Result<(), Stop> {
    match word {
        "begin" => said.number_or_none(session.begin())?,
        "end" => said.number_or_none(session.end())?,
        "renew" => say_renewed(session.renew(), said)?,
        "reset" => session.reset(reset_of(words.next())?),
        "descriptor" => said.number(session.descriptor())?,
        "set" => session.set(b'a', value_of(words.next())?),
        "get" => said.signed(session.get(b'a'))?,
        "settings" => {
            let is_unset = session.settings() == [None; 26];
            said.word(if is_unset { "none" } else { "some" })?;
        }
        _ => return Err(Stop::Unread),
    }
    Ok(())
}

fn say_renewed(descriptors: Option<(u64, u64)>, said: &mut Said) -> Result<(), Stop> {
    match descriptors {
        Some((ended, begun)) => {
            said.number(ended)?;
            said.number(begun)?;
        }
        None => said.word("none")?,
    }
    Ok(())
}

fn reset_of(word: &str) -> Result<Reset, Stop> {
    match word {
        "full" => Ok(Reset::Full),
        "keep" => Ok(Reset::KeepTransaction),
        _ => Err(Stop::Unread),
    }
}

fn value_of(word: &str) -> Result<i32, Stop> {
    match word.parse::<i32>() {
        Ok(value) => Ok(value),
        Err(_) => Err(Stop::Unread),
    }
}
