//! Walks answers that were written by hand from MS-TDS: whole, in pieces of one byte, cut in two at each
//! byte, without their end from each byte on, and with each of their lengths altered. It prints how many
//! came out as they are to. Or it walks answers that others made, a line of digits each, or measures how
//! long a walk takes.
#![tactic(auto)]

mod altering;
mod judging;
mod lines;
mod parsing;
mod timing;
mod values;
mod vector;
mod walk;

use judging::{Counts, Judge};
use lines::walk_lines;
use parsing::read_vectors;
use std::process::ExitCode;
use std::{fs, io};
use tds_wire::TokenParser;
use timing::time_walks;
use vector::{Detail, Vector};

/// The most columns of a result.
const MOST_COLUMNS: u16 = 4096;

/// Runs a command line: `vectors FILE [FILE]`, where the second file's answers have all that is told, `lines` over standard
/// input, or `time FILE PIECE TIMES`.
pub fn run(rt: &HostRuntime, words: &[String]) -> ExitCode {
    match obey(rt, words) {
        Ok(true) => ExitCode::SUCCESS,
        Ok(false) => ExitCode::FAILURE,
        Err(error) => {
            let _ = eprintln!(rt; "error: {error}");
            ExitCode::FAILURE
        }
    }
}

/// Does what the words say. Whether all came out as it is to.
fn obey(rt: &HostRuntime, words: &[String]) -> io::Result<bool> {
    let Some((command, others)) = words.split_first() else {
        return Err(io::Error::from(io::ErrorKind::InvalidInput));
    };
    let Some((file, others)) = others.split_first() else {
        walk_lines(rt)?;
        return Ok(true);
    };
    if command.as_str() != "time" {
        return run_files(rt, file.as_str(), others.first());
    }
    let piece = number_of(others.first());
    let times = number_of(others.get(1));
    time_walks(rt, file.as_str(), piece, times as u64)?;
    Ok(true)
}

/// A number of the command line, 1 where there is none.
fn number_of(word: Option<&String>) -> usize {
    match word {
        Some(word) => word.as_str().parse::<usize>().unwrap_or(1),
        None => 1,
    }
}

/// Judges the answers of the files, and prints the counts. Whether all came out as they are to.
fn run_files(rt: &HostRuntime, file: &str, values: Option<&String>) -> io::Result<bool> {
    let mut counts = Counts {
        answers: 0,
        wholes: 0,
        cuts: 0,
        beginnings: 0,
        altered: 0,
    };
    let mut is_well = run_file(rt, file, Detail::All, &mut counts)?;
    if let Some(values) = values {
        is_well &= run_file(rt, values.as_str(), Detail::Values, &mut counts)?;
    }
    print_counts(rt, counts)?;
    Ok(is_well)
}

/// Judges the answers of a file. Whether all came out as they are to.
fn run_file(rt: &HostRuntime, file: &str, detail: Detail, counts: &mut Counts) -> io::Result<bool> {
    let text = fs::read_to_string(rt, file)?;
    let vectors = read_vectors(rt.alloc(), text.as_str())?;
    let mut is_well = true;
    for vector in vectors.iter() {
        is_well &= judge(rt, vector, detail, counts)?;
    }
    Ok(is_well)
}

/// Judges an answer. Whether it came out as it is to in each form.
fn judge(
    rt: &HostRuntime,
    vector: &Vector,
    detail: Detail,
    counts: &mut Counts,
) -> io::Result<bool> {
    let parser = TokenParser::new(rt.alloc(), MOST_COLUMNS, vector.features)?;
    let mut judge = Judge::new(rt.alloc(), parser, detail, *counts);
    let wrong = judge.first_wrong(vector)?;
    *counts = judge.counts;
    let Some(text) = wrong else {
        return Ok(true);
    };
    let name = vector.name.as_str();
    eprintln!(rt; "= {name}\n{text}")?;
    Ok(false)
}

fn print_counts(rt: &HostRuntime, counts: Counts) -> io::Result<()> {
    let Counts {
        answers,
        wholes,
        cuts,
        beginnings,
        altered,
    } = counts;
    println!(rt; "{answers} answers")?;
    println!(rt; "{wholes} whole and in pieces of one byte")?;
    println!(rt; "{cuts} cut in two")?;
    println!(rt; "{beginnings} without their end")?;
    println!(rt; "{altered} with a length altered")
}
