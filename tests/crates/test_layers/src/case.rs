//! A case, line by line: a call and what it is to answer.

use crate::said::Said;
use crate::words::Words;
use std::alloc::{AllocError, AllocFailed, Global};
use std::fmt::Write;

/// Why a script doesn't go on.
#[derive(Clone, Copy, Debug)]
pub enum Stop {
    Memory,
    /// A word that isn't one of the script's.
    Unread,
    /// There is no such request.
    Unlawful,
}

impl From<AllocError> for Stop {
    fn from(_: AllocError) -> Stop {
        Stop::Memory
    }
}

impl<T: Drop> From<AllocFailed<T>> for Stop {
    fn from(_: AllocFailed<T>) -> Stop {
        Stop::Memory
    }
}

/// A layer's calls.
pub trait Layer {
    /// Makes the call that these words ask for. What it answers is said.
    fn call(&mut self, words: &mut Words<'_>, said: &mut Said) -> Result<(), Stop>;
}

/// A text that lines name by `$name`.
#[derive(Drop)]
pub struct Name {
    name: String,
    text: String,
}

/// How a file goes.
#[derive(Drop)]
pub struct Tally {
    /// The line that was read last, from 1.
    pub line: u32,
    pub cases: u32,
    pub calls: u32,
    /// A line for each call that answered otherwise.
    pub wrong: String,
}

impl Tally {
    pub fn new(alloc: Global) -> Tally {
        Tally {
            line: 0,
            cases: 0,
            calls: 0,
            wrong: String::new(alloc),
        }
    }

    /// A case begins with the next line.
    pub fn begin(&mut self) {
        self.next_line();
        self.cases = self.cases.saturating_add(1);
    }

    fn next_line(&mut self) {
        self.line = self.line.saturating_add(1);
    }

    /// Counts a call.
    fn count(&mut self, found: &str, wanted: &str) -> Result<(), AllocError> {
        self.calls = self.calls.saturating_add(1);
        if found == wanted {
            return Ok(());
        }
        writeln!(
            self.wrong,
            "{}: found '{found}', wanted '{wanted}'",
            self.line
        )
    }
}

/// A case that is played.
#[derive(Drop)]
pub struct Case<'a> {
    pub text: &'a str,
    pub names: &'a [Name],
    pub said: &'a mut Said,
    pub tally: &'a mut Tally,
}

impl Case<'_> {
    /// Makes the call of each line on this layer.
    pub fn play<L: Layer>(&mut self, alloc: Global, layer: &mut L) -> Result<(), Stop> {
        let mut line = String::new(alloc);
        for text in self.text.split('\n') {
            self.tally.next_line();
            if is_call(text) {
                line.clear();
                match expand(self.names, text, &mut line) {
                    Ok(()) => self.make(layer, line.as_str())?,
                    Err(Stop::Memory) => return Err(Stop::Memory),
                    Err(_) => self.tally.count("no such name", text)?,
                }
            }
        }
        Ok(())
    }

    /// Makes a line's call, and compares.
    fn make<L: Layer>(&mut self, layer: &mut L, line: &str) -> Result<(), Stop> {
        let (call, wanted) = match line.split_once(" -> ") {
            Some(parts) => parts,
            None => (line, ""),
        };
        self.said.clear();
        match layer.call(&mut Words::new(call), self.said) {
            Ok(()) => {}
            Err(Stop::Unread) => self.said.word("unread")?,
            Err(Stop::Unlawful) => self.said.word("unlawful")?,
            Err(Stop::Memory) => return Err(Stop::Memory),
        }
        Ok(self.tally.count(self.said.text(), wanted)?)
    }
}

/// Whether a line isn't empty, and no comment.
fn is_call(line: &str) -> bool {
    !line.is_empty() && !line.starts_with('#')
}

/// Reads names: a line `$name TEXT` for each, whose text may have names that stand above it.
pub fn read_names(
    alloc: Global,
    text: &str,
    names: &mut Vec<Name>,
    tally: &mut Tally,
) -> Result<(), Stop> {
    for line in text.split('\n') {
        tally.next_line();
        if let Some(line) = line.strip_prefix('$') {
            names.push(read_name(alloc, names.as_slice(), line)?)?;
        }
    }
    Ok(())
}

fn read_name(alloc: Global, names: &[Name], line: &str) -> Result<Name, Stop> {
    let Some((name, rest)) = line.split_once(' ') else {
        return Err(Stop::Unread);
    };
    let mut text = String::new(alloc);
    expand(names, rest, &mut text)?;
    Ok(Name {
        name: String::from_str(alloc, name)?,
        text,
    })
}

/// Appends a line. In a word's place `$name` has the text of that name, `N*word` so many times the
/// word with a blank between each two, and `N^word` the same without blanks.
fn expand(names: &[Name], line: &str, out: &mut String) -> Result<(), Stop> {
    let mut is_first = true;
    for word in line.split(' ') {
        if !is_first {
            out.push(' ')?;
        }
        is_first = false;
        expand_word(names, word, out)?;
    }
    Ok(())
}

fn expand_word(names: &[Name], word: &str, out: &mut String) -> Result<(), Stop> {
    if let Some((count, word)) = word.split_once('*') {
        return repeat(names, count, word, " ", out);
    }
    if let Some((count, word)) = word.split_once('^') {
        return repeat(names, count, word, "", out);
    }
    out.push_str(text_of(names, word)?)?;
    Ok(())
}

/// Appends a word so many times, with this between each two.
fn repeat(
    names: &[Name],
    count: &str,
    word: &str,
    between: &str,
    out: &mut String,
) -> Result<(), Stop> {
    let Ok(count) = count.parse::<u32>() else {
        return Err(Stop::Unread);
    };
    let text = text_of(names, word)?;
    for place in 0..count {
        if place > 0 {
            out.push_str(between)?;
        }
        out.push_str(text)?;
    }
    Ok(())
}

/// The text that a word names, or the word.
fn text_of<'a>(names: &'a [Name], word: &'a str) -> Result<&'a str, Stop> {
    let Some(wanted) = word.strip_prefix('$') else {
        return Ok(word);
    };
    for name in names {
        if name.name.as_str() == wanted {
            return Ok(name.text.as_str());
        }
    }
    Err(Stop::Unread)
}
