//! The words of a command line, for the programs of tests.
#![tactic(auto)]

use std::env;
use std::io::{self, ErrorKind};

/// The words behind the program's name. Where they can't be had, a line says why, and the status is 1.
pub fn given(rt: &HostRuntime) -> Result<Vec<String>, u8> {
    match read(rt) {
        Ok(words) => Ok(words),
        Err(error) => {
            let why = match error.kind() {
                ErrorKind::OutOfMemory => "memory",
                _ => "a word isn't UTF-8",
            };
            let _ = eprintln!(rt; "error: {why}");
            Err(1)
        }
    }
}

fn read(rt: &HostRuntime) -> io::Result<Vec<String>> {
    let mut words = Vec::new(rt.alloc());
    for word in env::args(rt)?.skip(1) {
        words.push(word)?;
    }
    Ok(words)
}
