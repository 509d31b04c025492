//! Reads values: a COLMETADATA, then rows, one token a line, in hexadecimal. Of each row a line: its values, one behind the other. Times
//! are to the microsecond, texts and bytes in hexadecimal, texts as UTF-8 (packages/python/test_values.py compares them).

use mouktelf::rows::Columns;
use mouktelf::values::{Day, Value};
use std::error::Error;
use std::io::{stdin, BufWriter, Write};

fn token(line: &str) -> Result<Vec<u8>, std::num::ParseIntError> {
    (0..line.len() / 2).map(|at| u8::from_str_radix(&line[2 * at..2 * at + 2], 16)).collect()
}

fn hex(bytes: &[u8]) -> String {
    bytes.iter().map(|it| format!("{it:02x}")).collect()
}

fn date(day: Day) -> String {
    let (year, month, day) = day.date();
    format!("{year:04}-{month:02}-{day:02}")
}

fn time(units: u64) -> String {
    let (seconds, parts) = (units / 10_000_000, units % 10_000_000 / 10);
    format!("{:02}:{:02}:{:02}.{parts:06}", seconds / 3600, seconds / 60 % 60, seconds % 60)
}

fn told(value: &Value) -> String {
    match value {
        Value::Null => "-".into(),
        Value::Integer(it) => it.to_string(),
        Value::Bit(it) => u8::from(*it).to_string(),
        Value::Real(it) => format!("{:016x}", f64::from(*it).to_bits()),
        Value::Float(it) => format!("{:016x}", it.to_bits()),
        Value::Decimal(it) => it.to_string(),
        Value::Date(day) => date(*day),
        Value::Time(units) => time(*units),
        Value::DateTime(day, units) => format!("{}T{}", date(*day), time(*units)),
        Value::DateTimeOffset(day, units, offset) => format!("{}T{}Z{offset}", date(*day), time(*units)),
        // To the millisecond that is next.
        Value::OldDateTime(day, thirds) => format!("{}T{}", date(*day), time((u64::from(*thirds) * 2000 + 300) / 600 * 10_000)),
        Value::Guid(it) => hex(it),
        Value::Text(it) => hex(it.as_bytes()),
        Value::Units(it) => format!("{it:04x?}"),
        Value::Bytes(it) => hex(it),
    }
}

fn main() -> Result<(), Box<dyn Error>> {
    let mut lines = stdin().lines();
    let described = token(&lines.next().ok_or("no columns")??)?;
    let columns = Columns::of(&described, false)?.ok_or("no columns")?;
    let mut out = BufWriter::new(std::io::stdout());
    for line in lines {
        let values = columns.values(&token(&line?)?)?;
        writeln!(out, "{}", values.iter().map(told).collect::<Vec<_>>().join(" "))?;
    }
    Ok(())
}
