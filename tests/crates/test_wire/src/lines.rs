//! Answers that others made.

use crate::parsing::features_of;
use crate::vector::Detail;
use crate::walk::{Pieces, put_told};
use std::io;
use std::io::{BufRead, BufReader, BufWriter, Write};
use tds_wire::TokenParser;

/// The most columns of a result.
const MOST_COLUMNS: u16 = 4096;

/// Walks the answers of standard input. An answer is a line: in pieces of how many bytes it is handed in, its digits, and
/// what its login agreed on. Behind its tokens' lines stands `end`, `cut` or its fault.
pub(crate) fn walk_lines(rt: &HostRuntime) -> io::Result<()> {
    let mut out = BufWriter::new(rt.alloc(), io::writer(rt))?;
    for line in BufReader::new(rt.alloc(), rt.reader())?.lines(rt.alloc()) {
        let line = line?;
        let text = told_of(rt, line.as_str())?;
        out.write_all(text.as_bytes())?;
    }
    out.flush()
}

/// What is told of the answer of a line.
fn told_of(rt: &HostRuntime, line: &str) -> io::Result<String> {
    let alloc = rt.alloc();
    let mut text = String::new(alloc);
    let (size, rest) = line.split_once(" ").unwrap_or(("", line));
    let (digits, agreed) = rest.split_once(" ").unwrap_or((rest, ""));
    let Ok(bytes) = hex::decode(alloc, digits) else {
        text.push_str("no digits\n")?;
        return Ok(text);
    };
    let size = size.parse::<usize>().unwrap_or(usize::MAX);
    let mut parser = TokenParser::new(alloc, MOST_COLUMNS, features_of(agreed))?;
    put_told(
        &mut parser,
        bytes.as_slice(),
        Pieces::Each(size),
        Detail::All,
        &mut text,
    )?;
    Ok(text)
}
