//! Judges recorded connections, and compares what is found with what the file says.
//!
//!     cargo run --example judge captures.txt
//!
//! The file is a release's `examples/captures.txt`, whose first lines say its form.

use mouktelf::{judge, Fault, Limits, Piece, What};
use std::{env, error::Error, fs, process::ExitCode};

fn bytes(digits: &str) -> Result<Vec<u8>, Box<dyn Error>> {
    (0..digits.len() / 2).map(|at| Ok(u8::from_str_radix(&digits[2 * at..2 * at + 2], 16)?)).collect()
}

/// What is found in these lines, as the file spells it.
fn found(lines: &[(String, u64, Vec<u8>)], limits: &Limits) -> Result<String, Box<dyn Error>> {
    let mut pieces = Vec::new();
    for (word, time, bytes) in lines {
        let what = match word.as_str() {
            ">" => What::ToServer(bytes),
            "<" => What::ToClient(bytes),
            "borrow" => What::Borrowed,
            _ => What::Closed,
        };
        pieces.push(Piece { time: *time, what });
    }
    Ok(judge(limits, &pieces)?.iter().map(|it| format!(" {}@{}={}", it.number, it.offset, it.value)).collect())
}

fn main() -> Result<ExitCode, Box<dyn Error>> {
    let text = fs::read_to_string(env::args().nth(1).ok_or("usage: judge FILE")?)?;
    let limits = Limits { idle: 5_000_000, columns: 16, ..Limits::default() };
    let (mut count, mut wrong, mut name, mut lines) = (0, 0, "", Vec::new());
    for line in text.lines() {
        let words: Vec<&str> = line.split_whitespace().collect();
        match words.first().copied().unwrap_or("#") {
            "=" => {
                (count, name) = (count + 1, line);
                lines.clear();
            }
            "found" => {
                let told = found(&lines, &limits)?;
                if told != line["found".len()..].trim_end() {
                    wrong += 1;
                    println!("{name}:{told}, and the file has {line}");
                }
            }
            word @ (">" | "<" | "borrow" | "close") => {
                lines.push((word.into(), words[1].parse()?, bytes(words.get(2).unwrap_or(&""))?));
            }
            _ => {}
        }
    }
    if judge(&Limits { columns: 4097, ..limits }, &[]) != Err(Fault::OutOfRange) {
        wrong += 1;
        println!("4097 columns aren't refused");
    }
    println!("{count} captures");
    Ok(ExitCode::from(u8::from(wrong > 0)))
}
