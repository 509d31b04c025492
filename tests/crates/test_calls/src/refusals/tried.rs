//! What came of a call that was made again where memory was refused.

use std::alloc::{AllocError, AllocFailed, Global};
use std::fmt::Write;

/// Why a call was not tried.
#[derive(Clone, Copy)]
pub enum Fault {
    /// Memory was refused inside of the call, which has nothing that could have changed.
    Refused,
    /// Memory was refused beside the call: for its state, or for what is printed of it.
    Memory,
    /// The call answered what it should not.
    Wrong,
    /// No call has this name.
    Unknown,
    /// What was printed was not taken.
    Output,
    /// A file could not be read.
    File,
}

impl Fault {
    /// The word behind `error: `.
    pub fn word(self) -> &'static str {
        match self {
            Fault::Refused => "refused",
            Fault::Memory => "memory",
            Fault::Wrong => "wrong",
            Fault::Unknown => "unknown",
            Fault::Output => "output",
            Fault::File => "file",
        }
    }

    /// The exit status.
    pub fn status(self) -> u8 {
        match self {
            Fault::Memory => 1,
            Fault::Refused | Fault::Wrong | Fault::Unknown | Fault::Output | Fault::File => 2,
        }
    }
}

impl From<AllocError> for Fault {
    fn from(_: AllocError) -> Fault {
        Fault::Memory
    }
}

impl<T: Drop> From<AllocFailed<T>> for Fault {
    fn from(_: AllocFailed<T>) -> Fault {
        Fault::Memory
    }
}

/// A call that is made again gives what it should.
pub fn again<T: Drop, E: Drop>(called: Result<T, E>) -> Result<(), Fault> {
    match called {
        Ok(_) => Ok(()),
        Err(_) => Err(Fault::Wrong),
    }
}

/// What came of a call. It is kept for the next one.
#[derive(Drop)]
pub struct Tried {
    /// Whether memory was refused inside of it, so that it was made again.
    was_refused: bool,
    /// Whether something differed then from what it was before the call.
    has_changed: bool,
    /// What the call gave in the end: its bytes in hexadecimal, or a text.
    got: String,
}

impl Tried {
    pub fn new(alloc: Global) -> Tried {
        Tried {
            was_refused: false,
            has_changed: false,
            got: String::new(alloc),
        }
    }

    /// Memory was refused inside of the call, and all is as it was, or isn't.
    pub fn refuse(&mut self, is_same: bool) {
        self.was_refused = true;
        self.has_changed = self.has_changed || !is_same;
    }

    /// The call gave these bytes.
    pub fn get(&mut self, bytes: &[u8]) -> Result<(), Fault> {
        self.got.push_str(" ")?;
        for byte in bytes {
            write!(self.got, "{byte:02x}")?;
        }
        Ok(())
    }

    /// The call gave so many, behind a space.
    pub fn count(&mut self, number: u64) -> Result<(), Fault> {
        write!(self.got, " {number}")?;
        Ok(())
    }

    /// The call gave what this text says.
    pub fn say(&mut self, text: &str) -> Result<(), Fault> {
        self.got.push_str(" ")?;
        self.got.push_str(text)?;
        Ok(())
    }

    /// The call gave what this text of ASCII says, from a new line on.
    pub fn say_bytes(&mut self, text: &[u8]) -> Result<(), Fault> {
        self.got.push('\n')?;
        for byte in text {
            self.got.push(char::from(*byte))?;
        }
        Ok(())
    }

    /// A line for the refusal, if there was one, and a line for what the call gave. Then it is empty.
    pub fn tell(&mut self, name: &str, text: &mut String) -> Result<(), Fault> {
        if self.was_refused {
            text.push_str("refused\n")?;
        }
        if self.has_changed {
            text.push_str("changed\n")?;
        }
        self.was_refused = false;
        self.has_changed = false;
        text.push_str(name)?;
        text.push_str(":")?;
        text.push_str(self.got.as_str())?;
        text.push_str("\n")?;
        self.got.clear();
        Ok(())
    }
}
