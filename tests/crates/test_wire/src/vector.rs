//! An answer that was written by hand, and what is wanted of it.

use std::alloc::AllocError;
use tds_wire::Features;

/// An answer, and what is wanted of it.
#[derive(Drop)]
pub(crate) struct Vector {
    pub(crate) name: String,
    pub(crate) features: Features,
    pub(crate) bytes: Vec<u8>,
    pub(crate) lengths: Vec<Length>,
    pub(crate) lines: Vec<Line>,
    pub(crate) last: Last,
}

/// What a number counts.
#[derive(Clone, Copy, Debug, PartialEq, Eq)]
pub(crate) enum Counted {
    Bytes,
    /// Units of two bytes.
    Units,
    /// Columns, parts of a name and the like.
    Things,
}

impl Counted {
    /// How many bytes one of them has; 0 where they differ.
    pub(crate) fn bytes(self) -> usize {
        match self {
            Counted::Bytes => 1,
            Counted::Units => 2,
            Counted::Things => 0,
        }
    }
}

/// A number that says how much stands behind it.
#[derive(Clone, Copy)]
pub(crate) struct Length {
    /// Where the number stands, and how many bytes it has.
    pub(crate) place: usize,
    pub(crate) width: usize,
    /// Where what it counts ends.
    pub(crate) behind: usize,
    pub(crate) counted: Counted,
    /// The one inside of whose bytes it stands, by its place among the lengths.
    pub(crate) outer: Option<usize>,
}

/// A token that is wanted.
#[derive(Drop)]
pub(crate) struct Line {
    pub(crate) start: usize,
    pub(crate) kind: String,
    pub(crate) length: usize,
    /// What else is told of it, behind a space.
    pub(crate) more: String,
}

impl Line {
    /// Where it ends.
    pub(crate) fn end(&self) -> usize {
        self.start.saturating_add(self.length)
    }
}

/// How an answer ends.
#[derive(Drop)]
pub(crate) enum Last {
    End,
    Cut,
    Fault { words: String, at: usize },
}

/// How much of a line is compared.
#[derive(Clone, Copy, Debug, PartialEq, Eq)]
pub(crate) enum Detail {
    /// Where tokens end.
    Ends,
    /// And what is told of DONEs, and the types of ENVCHANGEs.
    All,
    /// And all that is told.
    Values,
}

/// Bytes that were put in, or taken out, at a place.
#[derive(Clone, Copy)]
pub(crate) struct Change {
    pub(crate) place: usize,
    pub(crate) more: usize,
    pub(crate) less: usize,
}

impl Change {
    /// No change at all.
    pub(crate) const NONE: Change = Change {
        place: usize::MAX,
        more: 0,
        less: 0,
    };

    /// A place, or a length, behind the change.
    pub(crate) fn of(self, number: usize) -> usize {
        number.saturating_add(self.more).saturating_sub(self.less)
    }
}

impl Vector {
    /// Puts the lines that are wanted, behind a change.
    pub(crate) fn put_wanted(
        &self,
        change: Change,
        detail: Detail,
        text: &mut String,
    ) -> Result<(), AllocError> {
        for line in self.lines.iter() {
            put_line(line, change, detail, text)?;
        }
        self.put_last(change, text)
    }

    fn put_last(&self, change: Change, text: &mut String) -> Result<(), AllocError> {
        match &self.last {
            Last::End => text.push_str("end\n"),
            Last::Cut => text.push_str("cut\n"),
            Last::Fault { words, at } => {
                let at = match *at >= change.place {
                    true => change.of(*at),
                    false => *at,
                };
                writeln!(text, "fault {words} at {at}")
            }
        }
    }

    /// Puts the lines that are wanted of the first bytes alone.
    pub(crate) fn put_beginning(
        &self,
        count: usize,
        detail: Detail,
        text: &mut String,
    ) -> Result<(), AllocError> {
        let mut end = 0;
        for line in self.lines.iter() {
            if line.end() <= count {
                put_line(line, Change::NONE, detail, text)?;
                end = line.end();
            }
        }
        match &self.last {
            Last::Fault { at, .. } if *at < count => self.put_last(Change::NONE, text),
            _ => text.push_str(if end == count { "end\n" } else { "cut\n" }),
        }
    }

    /// Puts where the tokens end that end before this place.
    pub(crate) fn put_before(&self, place: usize, text: &mut String) -> Result<(), AllocError> {
        for line in self.lines.iter() {
            if line.end() <= place {
                put_line(line, Change::NONE, Detail::Ends, text)?;
            }
        }
        Ok(())
    }

    /// Puts where the tokens end that begin before this place.
    pub(crate) fn put_through(&self, place: usize, text: &mut String) -> Result<(), AllocError> {
        for line in self.lines.iter() {
            if line.start < place {
                put_line(line, Change::NONE, Detail::Ends, text)?;
            }
        }
        Ok(())
    }
}

/// Puts one line, behind a change.
fn put_line(
    line: &Line,
    change: Change,
    detail: Detail,
    text: &mut String,
) -> Result<(), AllocError> {
    let start = match line.start >= change.place {
        true => change.of(line.start),
        false => line.start,
    };
    let length = match line.start < change.place && change.place <= line.end() {
        true => change.of(line.length),
        false => line.length,
    };
    let kind = line.kind.as_str();
    write!(text, "{start} {kind} {length}")?;
    if detail != Detail::Ends {
        text.push_str(line.more.as_str())?;
    }
    text.push_str("\n")
}
