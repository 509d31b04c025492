//! A capture.

ghost use Rattle.std.specs.Prelude.{◌≡◌};

use std::alloc::Global;
use std::fmt::Write;
use std::io;
use tds_judge::{Direction, Features, Finding, Judge, Limits};

/// A judge, and what it found.
#[derive(Drop)]
pub struct Player {
    judge: Judge,
    found: Vec<Finding>,
}

/// What the judges here go by.
pub(crate) fn limits() -> Limits
    ensures { result.columns ≡ 16 }
{
    Limits {
        idle: 5_000_000,
        columns: 16,
        features: Features {
            encryption: false,
            ranks: false,
        },
    }
}

impl Player {
    pub fn new(alloc: Global) -> io::Result<Player> {
        let judge = Judge::new(alloc, limits())?;
        Ok(Player {
            judge,
            found: Vec::new(alloc),
        })
    }

    /// Takes a line of a capture, its bytes in pieces of this size.
    pub fn take_line(&mut self, alloc: Global, line: &str, size: usize) -> io::Result<()> {
        let (word, rest) = line.split_once(" ").unwrap_or((line, ""));
        let (time, digits) = rest.split_once(" ").unwrap_or((rest, ""));
        let Ok(time) = time.parse::<u64>() else {
            return Err(io::Error::from(io::ErrorKind::InvalidData));
        };
        let Ok(bytes) = hex::decode(alloc, digits) else {
            return Err(io::Error::from(io::ErrorKind::InvalidData));
        };
        match word {
            ">" => self.take(Direction::ToServer, time, bytes.as_slice(), size),
            "<" => self.take(Direction::ToClient, time, bytes.as_slice(), size),
            "borrow" => Ok(self.judge.borrow(time, &mut self.found)?),
            "close" => Ok(self.judge.close(time, &mut self.found)?),
            _ => Err(io::Error::from(io::ErrorKind::InvalidData)),
        }
    }

    /// Takes bytes in pieces.
    fn take(&mut self, way: Direction, time: u64, bytes: &[u8], size: usize) -> io::Result<()> {
        for piece in bytes.chunks(size.max(1)) {
            match self.judge.take(way, time, piece, &mut self.found) {
                Ok(()) => {}
                Err(_) => return Err(io::Error::from(io::ErrorKind::OutOfMemory)),
            }
        }
        Ok(())
    }

    /// What was found, as the file has it.
    fn text(&self, alloc: Global) -> io::Result<String> {
        let mut text = String::new(alloc);
        text.push_str("found")?;
        for finding in self.found.as_slice() {
            put_finding(&mut text, finding)?;
        }
        Ok(text)
    }

    /// Whether what was found is what the line says; else both are told.
    pub fn compare(&self, rt: &HostRuntime, name: &str, wanted: &str) -> io::Result<bool> {
        let found = self.text(rt.alloc())?;
        if found.as_str() == wanted {
            return Ok(true);
        }
        eprintln!(rt; "{name}: {found}, and the file has {wanted}")?;
        Ok(false)
    }
}

fn put_finding(text: &mut String, finding: &Finding) -> io::Result<()> {
    let number = finding.name.number();
    let offset = finding.spot.offset;
    write!(text, " {number}@{offset}={}", finding.value)?;
    Ok(())
}
