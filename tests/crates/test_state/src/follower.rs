//! A tracker, and a parser over what its server says; or a watch, which has both.

use std::alloc::{AllocError, Global};
use tds_packet::Reset;
use tds_state::{Reason, Request, Tracker, Watch};
use tds_wire::{Features, TokenParser};

/// A step that can't be read, or whose bytes are no answer.
#[derive(Clone, Copy, Debug)]
pub(crate) struct StepFault;

#[derive(Drop)]
pub(crate) struct Follower {
    tracker: Tracker,
    parser: TokenParser,
    watch: Watch,
    is_watched: bool,
}

impl Follower {
    pub(crate) fn new(alloc: Global) -> Result<Follower, AllocError> {
        let features = Features {
            encryption: false,
            ranks: false,
        };
        Ok(Follower {
            tracker: Tracker::new(alloc)?,
            parser: TokenParser::new(alloc, 64, features)?,
            watch: Watch::new(alloc, features)?,
            is_watched: false,
        })
    }

    pub(crate) fn rests(&self) -> bool {
        if self.is_watched {
            self.watch.rests()
        } else {
            self.tracker.rests()
        }
    }

    /// Why it doesn't rest.
    pub(crate) fn why(&self) -> Option<Reason> {
        if self.is_watched {
            self.watch.why()
        } else {
            self.tracker.why()
        }
    }

    /// Does a step: `hear BYTES` is a whole message of the server's, `part BYTES` one that goes on; `batch`, `call` or
    /// `load`, behind it `full` or `keep` and the body's bytes; `more BYTES` of a body; `cancel`. `login BYTES` begins a
    /// watch; `out BYTES` and `in BYTES` are packets.
    pub(crate) fn step(
        &mut self,
        alloc: Global,
        step: &str,
        size: usize,
    ) -> Result<Result<(), StepFault>, AllocError> {
        let (verb, rest) = step.split_once(" ").unwrap_or((step, ""));
        let kind = match verb {
            "hear" | "part" => {
                let Some(bytes) = bytes_of(alloc, rest)? else {
                    return Ok(Err(StepFault));
                };
                return Ok(self.hear(bytes.as_slice(), size, verb == "hear"));
            }
            "more" => {
                let Some(bytes) = bytes_of(alloc, rest)? else {
                    return Ok(Err(StepFault));
                };
                self.send(bytes.as_slice(), size);
                return Ok(Ok(()));
            }
            "login" | "out" | "in" => {
                let Some(bytes) = bytes_of(alloc, rest)? else {
                    return Ok(Err(StepFault));
                };
                self.watch_step(verb, bytes.as_slice(), size);
                return Ok(Ok(()));
            }
            "cancel" => {
                self.tracker.cancel();
                return Ok(Ok(()));
            }
            "batch" => Request::Batch,
            "call" => Request::Procedure,
            "load" => Request::Other,
            _ => return Ok(Err(StepFault)),
        };
        let (first, others) = rest.split_once(" ").unwrap_or((rest, ""));
        let (reset, body) = match first {
            "full" => (Some(Reset::Full), others),
            "keep" => (Some(Reset::KeepTransaction), others),
            _ => (None, rest),
        };
        let Some(bytes) = bytes_of(alloc, body)? else {
            return Ok(Err(StepFault));
        };
        self.tracker.ask(kind, reset);
        self.send(bytes.as_slice(), size);
        Ok(Ok(()))
    }

    fn watch_step(&mut self, verb: &str, bytes: &[u8], size: usize) {
        if verb == "login" {
            self.watch.let_in(bytes);
            self.is_watched = true;
            return;
        }
        let mut left = bytes;
        for _ in 0..bytes.len() {
            if left.is_empty() {
                return;
            }
            let (piece, others) = left.split_at(left.len().min(size.max(1)));
            if verb == "out" {
                self.watch.sent(piece);
            } else {
                self.watch.came(piece);
            }
            left = others;
        }
    }

    fn send(&mut self, bytes: &[u8], size: usize) {
        let mut left = bytes;
        for _ in 0..bytes.len() {
            if left.is_empty() {
                return;
            }
            let (piece, others) = left.split_at(left.len().min(size.max(1)));
            self.tracker.send(piece);
            left = others;
        }
    }

    fn hear(&mut self, bytes: &[u8], size: usize, ends: bool) -> Result<(), StepFault> {
        let mut left = bytes;
        for _ in 0..bytes.len() {
            if left.is_empty() {
                break;
            }
            let (piece, others) = left.split_at(left.len().min(size.max(1)));
            self.hear_piece(piece)?;
            left = others;
        }
        if ends {
            if !self.parser.is_between() {
                return Err(StepFault);
            }
            self.parser.restart();
            self.tracker.end();
        }
        Ok(())
    }

    fn hear_piece(&mut self, piece: &[u8]) -> Result<(), StepFault> {
        let mut left = piece;
        for _ in 0..piece.len() {
            if left.is_empty() {
                break;
            }
            let mut token = None;
            let Ok(count) = self.parser.feed_to(left, &mut token) else {
                return Err(StepFault);
            };
            let (front, behind) = left.split_at(count.min(left.len()));
            self.tracker.hear(front, &token);
            left = behind;
        }
        Ok(())
    }
}

/// The bytes that words of digits spell; a word behind `"` stands for its letters, of two bytes each.
fn bytes_of(alloc: Global, words: &str) -> Result<Option<Vec<u8>>, AllocError> {
    let mut bytes = Vec::new(alloc);
    for word in words.split_whitespace() {
        if let Some(letters) = word.strip_prefix("\"") {
            for letter in letters.bytes() {
                bytes.extend_from_slice(&[letter, 0])?;
            }
            continue;
        }
        let (digits, times) = word.split_once("*").unwrap_or((word, "1"));
        let Ok(more) = hex::decode(alloc, digits) else {
            return Ok(None);
        };
        for _ in 0..times.parse::<u32>().unwrap_or(0) {
            bytes.extend_from_slice(more.as_slice())?;
        }
    }
    Ok(Some(bytes))
}
