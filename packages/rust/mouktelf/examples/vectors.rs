//! Walks each answer of a release's `examples/vectors.txt`, whole and in single bytes, and looks at what is told of its
//! tokens.
//!
//!     cargo run --example vectors vectors.txt

use mouktelf::{Agreed, Place, Told, Walk, Walked};
use std::{env, error::Error, fs, process::ExitCode};

fn place(it: Place) -> String {
    format!("{} {}", it.start, it.length)
}

/// All that is told of a token.
fn words(told: Told) -> String {
    match told {
        Told::Nothing => String::new(),
        Told::Done { status, command, count } => format!("{status:04X} {command} {count}"),
        Told::Transaction { change, new, old } => format!("{change} transaction {new} {old}"),
        Told::Reset => "18 reset".into(),
        Told::PacketSize(size) => format!("4 size {size}"),
        Told::Values { change, new, old } => format!("{change} values {} {}", place(new), place(old)),
        Told::OtherChange(change) => format!("{change} other"),
        Told::Message { number, state, class, text, others } => {
            format!("message {number} {state} {class} {} {}", place(text), place(others))
        }
        Told::ReturnStatus(number) => format!("value {number}"),
        Told::SessionState { number, is_recoverable, states } => {
            format!("state {number} {} {}", if is_recoverable { "recoverable" } else { "lost" }, place(states))
        }
        Told::Unclear => "unclear".into(),
    }
}

/// A token's line. A short one has the words of a DONE, the type of an ENVCHANGE, and of others nothing.
fn line(it: Walked, is_short: bool) -> String {
    let told = words(it.told);
    let told = match it.told {
        Told::Done { .. } => &told,
        _ if !is_short => &told,
        _ if it.kind == 0xE3 => told.split(' ').next().unwrap_or(""),
        _ => "",
    };
    format!("{} {:02X} {} {told}", it.start, it.kind, it.length).trim_end().into()
}

fn walked(data: &[u8], piece: usize, is_short: bool, agreed: Agreed) -> Vec<String> {
    let (mut walk, mut lines) = (Walk::new(4096, agreed), Vec::new());
    for mut rest in data.chunks(piece) {
        while !rest.is_empty() {
            match walk.next(rest) {
                Ok((count, token)) => {
                    rest = &rest[count..];
                    lines.extend(token.map(|it| line(it, is_short)));
                }
                Err(refused) => {
                    lines.push(format!("fault {} at {}", refused.fault.number(), refused.at));
                    return lines;
                }
            }
        }
    }
    lines.push(if walk.is_between() { "end" } else { "cut" }.into());
    lines
}

fn main() -> Result<ExitCode, Box<dyn Error>> {
    let text = fs::read_to_string(env::args().nth(1).ok_or("usage: vectors FILE")?)?;
    let (mut count, mut wrong) = (0, 0);
    for answer in text.trim_end().split("\n\n") {
        let mut lines = answer.lines();
        let title: Vec<&str> = lines.next().ok_or("no title")?.split(' ').collect();
        let digits = &lines.next().ok_or("no bytes")?[1..];
        let data = (0..digits.len() / 2).map(|at| u8::from_str_radix(&digits[2 * at..2 * at + 2], 16)).collect::<Result<Vec<_>, _>>()?;
        let wanted: Vec<&str> = lines.collect();
        let agreed = Agreed { encryption: title[3] == "encryption", ranks: title[3] == "ranks" };
        for piece in [data.len().max(1), 1] {
            let told = walked(&data, piece, title[2] == "short", agreed);
            if told != wanted {
                wrong += 1;
                eprintln!("{} in pieces of {piece}: {told:?}, and {wanted:?} is wanted", title[1]);
            }
        }
        count += 1;
    }
    println!("{count} answers, whole and in single bytes, {wrong} wrong");
    Ok(ExitCode::from(u8::from(wrong > 0)))
}
