//! Both ends of a connection, which are fed in pieces of one size.
//!
//! ```text
//! pieces N       from now on a piece has N bytes
//! ask REQUEST    the client starts it and sends one packet: `more` or `last`
//! answer         the server is fed with what was asked, and works: how many packets it answers
//! hear           the client is fed with the answer: `finished` where the request ended with the last
//!                piece, and not before
//! told           the bytes that spell the tokens which were told of this answer
//! ```

use crate::asks::request;
use crate::case::{Case, Layer, Stop};
use crate::client::sent_word;
use crate::said::Said;
use crate::spelling::{say_tokens, size_of};
use crate::words::Words;
use std::alloc::Global;
use tds_ends::{ClientEnd, RequestStatus, ServerEnd};
use tds_server::Worked;
use tds_session::ScriptEngine;
use tds_token::Token;

/// Both ends of a connection, the bytes that are underway and the tokens that were told.
#[derive(Drop)]
struct Ends {
    alloc: Global,
    client: ClientEnd,
    server: ServerEnd<ScriptEngine>,
    /// How many bytes a piece has, beside its first one.
    more: u16,
    asked: Vec<u8>,
    answer: Vec<u8>,
    told: Vec<Token>,
}

/// Plays a case.
pub fn play(alloc: Global, case: &mut Case<'_>) -> Result<(), Stop> {
    let size = size_of(512)?;
    let mut ends = Ends {
        alloc,
        client: ClientEnd::new(alloc, size),
        server: ServerEnd::new(alloc, ScriptEngine, size),
        more: 0,
        asked: Vec::new(alloc),
        answer: Vec::new(alloc),
        told: Vec::new(alloc),
    };
    case.play(alloc, &mut ends)
}

impl Layer for Ends {
    fn call(&mut self, words: &mut Words<'_>, said: &mut Said) -> Result<(), Stop> {
        match words.next() {
            "pieces" => self.cut(words),
            "ask" => self.ask(words, said),
            "answer" => self.answer(said),
            "hear" => self.hear(said),
            "told" => say_tokens(self.alloc, self.told.as_slice(), said),
            _ => Err(Stop::Unread),
        }
    }
}

impl Ends {
    fn cut(&mut self, words: &mut Words<'_>) -> Result<(), Stop> {
        match u16::try_from(words.number()?.saturating_sub(1)) {
            Ok(more) => self.more = more,
            Err(_) => return Err(Stop::Unread),
        }
        Ok(())
    }

    fn ask(&mut self, words: &mut Words<'_>, said: &mut Said) -> Result<(), Stop> {
        let request = request(self.alloc, words)?;
        let client = self.client.client_mut();
        self.asked.clear();
        if client.start(&request).is_err() {
            return Err(Stop::Unread);
        }
        match client.send(&mut self.asked) {
            Ok(sent) => said.word(sent_word(sent))?,
            Err(_) => return Err(Stop::Unread),
        }
        Ok(())
    }

    fn answer(&mut self, said: &mut Said) -> Result<(), Stop> {
        self.answer.clear();
        for piece in self.asked.chunks(1 + usize::from(self.more)) {
            let fed = self.server.serve(piece, &mut self.answer);
            if fed.count != piece.len() || fed.stop.is_some() {
                said.word("stop")?;
            }
        }
        let mut packets = 0u64;
        for _ in 0..100 {
            if self.server.work(&mut self.answer)? == Worked::Idle {
                break;
            }
            packets = packets.saturating_add(1);
        }
        said.number(packets)?;
        Ok(())
    }

    fn hear(&mut self, said: &mut Said) -> Result<(), Stop> {
        self.told.clear();
        let mut left = self.answer.len();
        for piece in self.answer.chunks(1 + usize::from(self.more)) {
            let fed = self.client.listen(piece, &mut self.told);
            left = left.saturating_sub(piece.len());
            if fed.count != piece.len() || fed.stop.is_some() {
                said.word("stop")?;
            }
            match fed.settled {
                Some(RequestStatus::Finished) if left == 0 => said.word("finished")?,
                Some(_) => said.word("settled otherwise")?,
                None => {}
            }
        }
        Ok(())
    }
}
