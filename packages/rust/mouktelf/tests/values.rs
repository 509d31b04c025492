//! 10,000 random rows of all types: each value as it was made is what its bytes are read as. The bytes are written here, by MS-TDS
//! 2.2.5.5. (packages/python/test_values.py compares the same with python-tds.)

use mouktelf::rows::{Columns, Parts, RowPlace};
use mouktelf::values::{joined_parts, value_of, Day, Decimal, Type, Value};

const ROWS: usize = 10_000;
const DAY_ONE: i64 = 693_595;
const LATIN: [u8; 5] = [9, 4, 0, 0, 0];
const RUSSIAN: [u8; 5] = [0x19, 4, 0, 0, 0];
const SORTED: [u8; 5] = [9, 4, 0, 0, 52];
const UTF_8: [u8; 5] = [9, 4, 0, 4, 0];

/// xorshift64*
struct Random(u64);

impl Random {
    fn next(&mut self) -> u64 {
        self.0 ^= self.0 >> 12;
        self.0 ^= self.0 << 25;
        self.0 ^= self.0 >> 27;
        self.0.wrapping_mul(0x2545_F491_4F6C_DD1D)
    }

    fn below(&mut self, most: u64) -> u64 {
        self.next() % most
    }

    /// A number of this range; of ten one at its ends.
    fn within(&mut self, low: i64, high: i64) -> i64 {
        match self.below(20) {
            0 => low,
            1 => high,
            _ => (i128::from(low) + (u128::from(self.next()) % ((i128::from(high) - i128::from(low) + 1) as u128)) as i128) as i64,
        }
    }

    fn bytes(&mut self, most: u64) -> Vec<u8> {
        (0..self.below(most + 1)).map(|_| self.next() as u8).collect()
    }

    fn text(&mut self, letters: &str, most: u64) -> String {
        let letters: Vec<char> = letters.chars().collect();
        (0..self.below(most + 1)).map(|_| letters[self.below(letters.len() as u64) as usize]).collect()
    }
}

fn units(text: &str) -> Vec<u8> {
    text.encode_utf16().flat_map(u16::to_le_bytes).collect()
}

fn day(it: &mut Random) -> (Vec<u8>, Day) {
    let day = it.within(0, 3_652_058) as i32;
    (day.to_le_bytes()[..3].to_vec(), Day(day))
}

fn time(it: &mut Random, scale: u8) -> (Vec<u8>, u64) {
    let count = it.within(0, 86_400 * 10i64.pow(scale.into()) - 1) as u64;
    let size = if scale <= 2 { 3 } else if scale <= 4 { 4 } else { 5 };
    (count.to_le_bytes()[..size].to_vec(), count * 10u64.pow(7 - u32::from(scale)))
}

fn decimal(it: &mut Random, precision: u32, scale: u8) -> (Vec<u8>, Value) {
    let size = match precision {
        0..=9 => 4,
        10..=19 => 8,
        20..=28 => 12,
        _ => 16,
    };
    let most = 10u128.pow(precision) - 1;
    let number = match it.below(10) {
        0 => most,
        _ => (u128::from(it.next()) << 64 | u128::from(it.next())) % (most + 1),
    };
    let negative = it.below(2) == 1;
    let bytes = [&[u8::from(!negative)], &number.to_le_bytes()[..size]].concat();
    let number = number as i128;
    (bytes, Value::Decimal(Decimal { number: if negative { -number } else { number }, scale }))
}

/// A value of this kind: its column, its bytes, and what is expected.
fn made(it: &mut Random, kind: usize) -> (Type, Vec<u8>, Value) {
    let of = |kind| Type { kind, ..Type::default() };
    match kind {
        0 => { let n = it.next() as u8; (of(0x26), vec![n], Value::Integer(n.into())) }
        1 => { let n = it.within(-32_768, 32_767) as i16; (of(0x34), n.to_le_bytes().into(), Value::Integer(n.into())) }
        2 => { let n = it.within(i32::MIN.into(), i32::MAX.into()) as i32; (of(0x26), n.to_le_bytes().into(), Value::Integer(n.into())) }
        3 => { let n = it.within(i64::MIN, i64::MAX); (of(0x7F), n.to_le_bytes().into(), Value::Integer(n)) }
        4 => { let n = it.below(2); (of(0x68), vec![n as u8], Value::Bit(n == 1)) }
        5 => { let n = it.within(-1 << 40, 1 << 40) as f32 / 3.0; (of(0x6D), n.to_le_bytes().into(), Value::Real(n)) }
        6 => { let n = it.within(i64::MIN, i64::MAX) as f64 / 7.0; (of(0x3E), n.to_le_bytes().into(), Value::Float(n)) }
        7 => {
            let n = it.within(i32::MIN.into(), i32::MAX.into()) as i32;
            (of(0x6E), n.to_le_bytes().into(), Value::Decimal(Decimal { number: n.into(), scale: 4 }))
        }
        8 => {
            let n = it.within(i64::MIN, i64::MAX);
            let bytes = [&((n >> 32) as i32).to_le_bytes()[..], &(n as u32).to_le_bytes()].concat();
            (of(0x3C), bytes, Value::Decimal(Decimal { number: n.into(), scale: 4 }))
        }
        9..=12 => {
            let (precision, scale) = [(9, 4), (19, 0), (28, 28), (38, 11)][kind - 9];
            let (bytes, value) = decimal(it, precision, scale);
            (Type { kind: if kind % 2 == 0 { 0x6A } else { 0x6C }, precision: precision as u8, scale, ..Type::default() }, bytes, value)
        }
        13 => { let (bytes, on) = day(it); (of(0x28), bytes, Value::Date(on)) }
        14..=16 => {
            let scale = [0, 3, 7][kind - 14];
            let (bytes, at) = time(it, scale);
            (Type { kind: 0x29, scale, ..Type::default() }, bytes, Value::Time(at))
        }
        17 | 18 => {
            let scale = [2, 7][kind - 17];
            let ((clock, at), (date, on)) = (time(it, scale), day(it));
            (Type { kind: 0x2A, scale, ..Type::default() }, [clock, date].concat(), Value::DateTime(on, at))
        }
        19 => {
            let ((clock, at), (date, on), offset) = (time(it, 5), day(it), it.within(-840, 840) as i16);
            let bytes = [&clock[..], &date, &offset.to_le_bytes()].concat();
            (Type { kind: 0x2B, scale: 5, ..Type::default() }, bytes, Value::DateTimeOffset(on, at, offset))
        }
        20 => {
            let (on, thirds) = (it.within(-53_690, 2_958_463), it.within(0, 25_919_999) as u32);
            let bytes = [(on as i32).to_le_bytes(), thirds.to_le_bytes()].concat();
            (of(0x6F), bytes, Value::OldDateTime(Day((DAY_ONE + on) as i32), thirds))
        }
        21 => {
            let (on, minutes) = (it.within(0, 65_535), it.within(0, 1439) as u16);
            let bytes = [(on as u16).to_le_bytes(), minutes.to_le_bytes()].concat();
            (of(0x3A), bytes, Value::DateTime(Day((DAY_ONE + on) as i32), u64::from(minutes) * 60 * 10_000_000))
        }
        22 => {
            let written: [u8; 16] = std::array::from_fn(|_| it.next() as u8);
            let mut bytes = written;
            bytes.copy_from_slice(&[&[3, 2, 1, 0, 5, 4, 7, 6].map(|at: usize| written[at])[..], &written[8..]].concat());
            (of(0x24), bytes.into(), Value::Guid(written))
        }
        23 | 24 => {
            let text = it.text("abcXYZ ÄéßñÖ", 40);
            let bytes = text.chars().map(|it| it as u32 as u8).collect();
            (Type { kind: 0xA7, size: 40, collation: if kind == 23 { LATIN } else { SORTED }, ..Type::default() }, bytes, Value::Text(text))
        }
        25 => { let text = it.text("aä日😀", 30); (Type { kind: 0xAF, collation: UTF_8, ..Type::default() }, text.clone().into_bytes(), Value::Text(text)) }
        26 => {
            // No code page of Rust's own: 0xC0 and up are letters there.
            let bytes: Vec<u8> = (0..1 + it.below(20)).map(|_| 0xC0 + it.below(64) as u8).collect();
            (Type { kind: 0xA7, collation: RUSSIAN, ..Type::default() }, bytes.clone(), Value::Bytes(bytes))
        }
        27 => { let text = it.text("aä日😀", 30); (Type { kind: 0xE7, collation: LATIN, ..Type::default() }, units(&text), Value::Text(text)) }
        28 => { let bytes = it.bytes(60); (of(0xA5), bytes.clone(), Value::Bytes(bytes)) }
        29 => { let text = format!("<a>{}</a>", it.text("xy日", 20)); (of(0xF1), units(&text), Value::Text(text)) }
        30 => { let text = it.text("aä日", 30); (Type { kind: 0x63, collation: LATIN, ..Type::default() }, units(&text), Value::Text(text)) }
        31 => { let bytes = it.bytes(60); (of(0x22), bytes.clone(), Value::Bytes(bytes)) }
        _ => {
            let base = [2, 3, 6, 12, 16, 22, 27, 28][it.below(8) as usize];
            let (column, bytes, value) = made(it, base);
            // What stands behind a number's byte or a date's says its size elsewhere.
            let (kind, own) = match column.kind {
                0x26 => (0x38, vec![]),
                0x6A | 0x6C => (column.kind, vec![column.precision, column.scale]),
                0x29 => (0x29, vec![column.scale]),
                0xE7 => (0xE7, [&column.collation[..], &[60, 0]].concat()),
                0xA5 => (0xA5, vec![60, 0]),
                other => (other, vec![]),
            };
            (of(0x62), [&[kind, own.len() as u8], &own[..], &bytes].concat(), value)
        }
    }
}

#[test]
fn values_are_what_was_made() {
    let mut it = Random(1);
    for row in 0..ROWS {
        for kind in 0..33 {
            let (column, bytes, value) = made(&mut it, kind);
            assert_eq!(value_of(&column, Some(&bytes)), value, "row {row}, {column:?}, {bytes:02x?}");
        }
    }
    assert_eq!(value_of(&Type { kind: 0x26, ..Type::default() }, None), Value::Null);
}

/// By hand (MS-TDS 2.2.7.4, 2.2.7.17, 2.2.7.13): an INTN, a VARCHAR, an NVARCHAR(max) in two parts.
#[test]
fn rows_are_read() {
    let token = [
        &[0x81, 3, 0, 0, 0, 0, 0, 9, 0, 0x26, 4, 1, 0x6E, 0][..],
        &[0, 0, 0, 0, 9, 0, 0xA7, 10, 0, 9, 4, 0, 0, 0, 1, 0x74, 0],
        &[0, 0, 0, 0, 9, 0, 0xE7, 0xFF, 0xFF, 9, 4, 0, 0, 0, 1, 0x6D, 0],
    ]
    .concat();
    let columns = Columns::of(&token, false).unwrap().unwrap();
    assert_eq!(columns.columns().iter().map(|it| it.name.as_str()).collect::<String>(), "ntm");
    let row = [&[0xD1, 4, 7, 0, 0, 0, 2, 0, 0x61, 0x80, 4, 0, 0, 0, 0, 0, 0, 0][..], &[2, 0, 0, 0, 0x78, 0, 2, 0, 0, 0, 0x79, 0, 0, 0, 0, 0]].concat();
    let read = [Value::Integer(7), Value::Text("a€".into()), Value::Text("xy".into())];
    assert_eq!(columns.values(&row).unwrap(), read);
    assert_eq!(columns.values(&[0xD2, 0b110, 4, 9, 0, 0, 0]).unwrap(), [Value::Integer(9), Value::Null, Value::Null]);
    let mut places = Vec::new();
    assert_eq!(columns.places(&[&row[..], &[0xD1]].concat(), &mut places), Ok(row.len()));
    assert_eq!(places.iter().map(|it| (it.start, it.length, it.null)).collect::<Vec<_>>(), [(2, 4, 0), (8, 2, 0), (18, 12, 0)]);
    assert!(columns.values(&row[..20]).is_err());
    // Both rows behind one another, and a DONE; where there is room for one alone; where the second is cut.
    let both = [&row[..], &[0xD2, 0b110, 4, 9, 0, 0, 0, 0xFD]].concat();
    let mut room = [RowPlace::default(); 7];
    assert_eq!(columns.places_of_rows(&both, &mut room), Ok((2, row.len() + 7)));
    assert_eq!(
        room[..6].iter().map(|it| (it.start, it.length, it.null)).collect::<Vec<_>>(),
        [(2, 4, 0), (8, 2, 0), (18, 12, 0), (37, 4, 0), (41, 0, 1), (41, 0, 1)]
    );
    assert_eq!(columns.places_of_rows(&both, &mut room[..5]), Ok((1, row.len())));
    assert_eq!(columns.places_of_rows(&both[..40], &mut room), Ok((1, row.len())));
    assert_eq!(columns.places_of_rows(&[], &mut []), Ok((0, 0)));
    // Its bytes up to anywhere: the values that are whole, from any column on, and one in parts as it comes.
    assert_eq!(columns.come(0, &[], &row[1..20], &mut places), Ok((2, 9)));
    assert_eq!((places[1].start, places[1].length), (7, 2));
    assert_eq!(columns.come(1, &[], &row[6..], &mut places), Ok((3, 28)));
    assert_eq!((places[2].start, places[2].length), (12, 12));
    assert_eq!(columns.come(0, &[6], &[4, 9, 0, 0, 0], &mut places), Ok((3, 5)));
    assert!(columns.come(4, &[], &row, &mut places).is_err());
    for size in 1..30 {
        let (mut parts, mut own, mut at) = (Parts::default(), Vec::new(), 10);
        while !parts.is_over() {
            let (piece, taken) = parts.next(&row[at..row.len().min(at + size)]);
            own.extend(piece);
            at += taken;
        }
        assert_eq!((own, at, parts.is_null()), (vec![0x78, 0, 0x79, 0], row.len(), false));
    }
    let mut null = Parts::default();
    assert_eq!((null.next(&[0xFF; 9]), null.is_over(), null.is_null()), ((&[][..], 8), true, true));
    assert!(Columns::of(&[0x81, 0xFF, 0xFF], false).unwrap().is_none());
}

#[test]
fn parts_are_joined() {
    let mut it = Random(2);
    for _ in 0..1000 {
        let whole = it.bytes(200);
        let (mut parts, mut rest) = (Vec::new(), &whole[..]);
        while !rest.is_empty() {
            let (part, behind) = rest.split_at(1 + it.below(rest.len() as u64) as usize);
            parts.extend((part.len() as u32).to_le_bytes());
            parts.extend(part);
            rest = behind;
        }
        assert_eq!(joined_parts(&parts), Some(whole));
        parts.push(0);
        assert_eq!(joined_parts(&parts), None);
    }
}

/// By hand: days of the calendar, and how decimals are written.
#[test]
fn words() {
    for (day, date) in [(0, (1, 1, 1)), (58, (1, 2, 28)), (59, (1, 3, 1)), (693_595, (1900, 1, 1)), (730_178, (2000, 2, 29)), (3_652_058, (9999, 12, 31))] {
        assert_eq!(Day(day).date(), date);
    }
    for (number, scale, text) in [(0, 0, "0"), (5, 2, "0.05"), (-12_345, 4, "-1.2345"), (10i128.pow(38) - 1, 38, "0.99999999999999999999999999999999999999")] {
        assert_eq!(Decimal { number, scale }.to_string(), text);
    }
    let bad = Type { kind: 0x28, ..Type::default() };
    assert_eq!(value_of(&bad, Some(&[0; 17])), Value::Bytes(vec![0; 17]));
}
