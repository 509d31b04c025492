//! Each answer in each form, and what comes of it beside what is wanted.

use crate::altering::{Alteration, altered, is_covered};
use crate::vector::{Change, Counted, Detail, Length, Vector};
use crate::walk::{Pieces, put_told};
use std::alloc::{AllocError, Global};
use tds_wire::TokenParser;

/// How many answers of each form came out as they are to.
#[derive(Clone, Copy)]
pub(crate) struct Counts {
    pub(crate) answers: u64,
    /// Whole, and in pieces of one byte.
    pub(crate) wholes: u64,
    /// In two pieces.
    pub(crate) cuts: u64,
    /// Of which the end is missing.
    pub(crate) beginnings: u64,
    /// Of which a length was altered.
    pub(crate) altered: u64,
}

/// Goes through the forms of answers.
#[derive(Drop)]
pub(crate) struct Judge {
    alloc: Global,
    parser: TokenParser,
    /// What is compared of an answer as it stands.
    detail: Detail,
    found: String,
    wanted: String,
    pub(crate) counts: Counts,
}

impl Judge {
    pub(crate) fn new(alloc: Global, parser: TokenParser, detail: Detail, counts: Counts) -> Judge {
        Judge {
            alloc,
            parser,
            detail,
            found: String::new(alloc),
            wanted: String::new(alloc),
            counts,
        }
    }

    /// The first form of an answer that doesn't come out as it is to; None where all do.
    pub(crate) fn first_wrong(&mut self, vector: &Vector) -> Result<Option<String>, AllocError> {
        if let Some(wrong) = self.wrong_whole(vector)? {
            return Ok(Some(wrong));
        }
        if let Some(wrong) = self.wrong_cut(vector)? {
            return Ok(Some(wrong));
        }
        if let Some(wrong) = self.wrong_beginning(vector)? {
            return Ok(Some(wrong));
        }
        self.wrong_altered(vector)
    }

    /// Walks bytes, and leaves what is told.
    fn walk(&mut self, bytes: &[u8], pieces: Pieces, detail: Detail) -> Result<(), AllocError> {
        self.found.clear();
        put_told(&mut self.parser, bytes, pieces, detail, &mut self.found)
    }

    /// Leaves what is wanted of an answer, behind a change.
    fn want(&mut self, vector: &Vector, change: Change, detail: Detail) -> Result<(), AllocError> {
        self.wanted.clear();
        vector.put_wanted(change, detail, &mut self.wanted)
    }

    fn is_well(&self) -> bool {
        self.found.as_str() == self.wanted.as_str()
    }

    /// What to say of a form that came out otherwise.
    fn wrong(&self, form: &str, number: usize) -> Result<Option<String>, AllocError> {
        let found = self.found.as_str();
        let wanted = self.wanted.as_str();
        let text = format!(in self.alloc; "{form} {number}\nfound:\n{found}wanted:\n{wanted}")?;
        Ok(Some(text))
    }

    fn wrong_whole(&mut self, vector: &Vector) -> Result<Option<String>, AllocError> {
        self.counts.answers = self.counts.answers.saturating_add(1);
        self.want(vector, Change::NONE, self.detail)?;
        for size in [usize::MAX, 1] {
            self.walk(vector.bytes.as_slice(), Pieces::Each(size), self.detail)?;
            if !self.is_well() {
                return self.wrong("in pieces of", size);
            }
            self.counts.wholes = self.counts.wholes.saturating_add(1);
        }
        Ok(None)
    }

    fn wrong_cut(&mut self, vector: &Vector) -> Result<Option<String>, AllocError> {
        self.want(vector, Change::NONE, self.detail)?;
        let all = vector.bytes.len();
        let mut count = 0;
        for _ in 0..=all {
            self.walk(vector.bytes.as_slice(), Pieces::Two(count), self.detail)?;
            if !self.is_well() {
                return self.wrong("cut at", count);
            }
            self.counts.cuts = self.counts.cuts.saturating_add(1);
            if count >= all {
                break;
            }
            count = next_place(count, all);
        }
        Ok(None)
    }

    fn wrong_beginning(&mut self, vector: &Vector) -> Result<Option<String>, AllocError> {
        let all = vector.bytes.len();
        let mut count = 0;
        for _ in 0..all {
            if count >= all {
                break;
            }
            let (beginning, _) = vector.bytes.as_slice().split_at(count.min(all));
            self.walk(beginning, Pieces::Each(usize::MAX), self.detail)?;
            self.wanted.clear();
            vector.put_beginning(count, self.detail, &mut self.wanted)?;
            if !self.is_well() {
                return self.wrong("ended at", count);
            }
            self.counts.beginnings = self.counts.beginnings.saturating_add(1);
            count = next_place(count, all);
        }
        Ok(None)
    }

    fn wrong_altered(&mut self, vector: &Vector) -> Result<Option<String>, AllocError> {
        for length in vector.lengths.iter() {
            for how in Alteration::ALL {
                if self.is_wrong_altered(vector, *length, how)? {
                    let form = format!(in self.alloc; "{} at", how.words())?;
                    return self.wrong(form.as_str(), length.place);
                }
            }
        }
        Ok(None)
    }

    /// Whether the answer with this length altered comes out otherwise than it is to.
    fn is_wrong_altered(
        &mut self,
        vector: &Vector,
        length: Length,
        how: Alteration,
    ) -> Result<bool, AllocError> {
        let Some(bytes) = altered(self.alloc, vector, length, how)? else {
            return Ok(false);
        };
        self.counts.altered = self.counts.altered.saturating_add(1);
        self.walk(bytes.as_slice(), Pieces::Each(usize::MAX), Detail::Ends)?;
        let unit = length.counted.bytes();
        let (more, less) = match how {
            Alteration::Longer => (unit, 0),
            Alteration::Shorter => (0, unit),
            Alteration::Lying if !is_covered(vector, length) => return self.is_end_same(
                vector, length,
            ),
            Alteration::Lying => (0, 0),
            Alteration::Endless => {
                self.wanted.clear();
                vector.put_before(length.place, &mut self.wanted)?;
                self.wanted.push_str("cut\n")?;
                return Ok(!self.is_well());
            }
        };
        let place = length.behind;
        self.want(vector, Change { place, more, less }, Detail::Ends)?;
        Ok(!self.is_well())
    }

    /// Whether the token with a length that lies ends where it did, or one before it doesn't.
    fn is_end_same(&mut self, vector: &Vector, length: Length) -> Result<bool, AllocError> {
        self.wanted.clear();
        vector.put_through(length.place, &mut self.wanted)?;
        let is_same = self.found.as_str().starts_with(self.wanted.as_str());
        self.wanted.clear();
        vector.put_before(length.place, &mut self.wanted)?;
        let is_before = self.found.as_str().starts_with(self.wanted.as_str());
        Ok(is_same || !is_before)
    }
}

/// The next place at which an answer is cut: behind each byte. In the middle of an answer of more than 10,000 bytes, which
/// is one long value, behind each 97th.
fn next_place(place: usize, all: usize) -> usize {
    let is_middle = place >= 1_000 && place < all.saturating_sub(1_000);
    match all > 10_000 && is_middle {
        true => place.saturating_add(97),
        false => place.saturating_add(1),
    }
}
