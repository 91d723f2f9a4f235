//! "Response records."

use super::calendar::{is_real_date, is_real_time};
use super::{plain, Refusal};

/// The most commands of a session, and so the largest n of a record. P6: "Both limits go from 64 to 200. n in a record may now have three
/// digits".
pub const COMMANDS: usize = 200;

/// The limit before P6: "older host readers" have it.
pub const OLD_COMMANDS: usize = 64;

#[derive(Clone, Copy, Debug, PartialEq, Eq)]
pub enum Outcome {
    Processed,
    Error { class: u32, code: u32 },
}

#[derive(Clone, Debug, PartialEq, Eq)]
pub struct Record {
    pub number: u32,
    pub outcome: Outcome,
    pub text: Vec<u8>,
    pub date: u32,
    pub time: u32,
}

pub fn is_outcome(o: Outcome) -> bool {
    match o {
        Outcome::Processed => true,
        Outcome::Error { class, code } => class <= 99 && code <= 99_999_999,
    }
}

fn is_text(text: &[u8]) -> bool {
    text.len() <= 255 && text.iter().all(|b| (32..=254).contains(b) && *b != 34)
}

/// The record's bytes, whatever its fields.
pub fn record_bytes(r: &Record) -> Vec<u8> {
    let mut out = match r.outcome {
        Outcome::Processed => format!("COMMAND {} PROCESSED \"", r.number),
        Outcome::Error { class, code } => format!("COMMAND {} ERROR {:02} {:08} \"", r.number, class, code),
    }
    .into_bytes();
    out.extend(&r.text);
    out.extend(format!("\" {:08} {:02}:{:02}:{:02};\r\n", r.date, r.time / 10000, r.time / 100 % 100, r.time % 100).bytes());
    out
}

/// "The writer tests number, class, code and text (7), then date and time (5), then room (8)."
pub fn write_record(r: &Record, room: usize) -> Result<Vec<u8>, Refusal> {
    write_record_within(COMMANDS, r, room)
}

/// The same where the limit of n is another.
fn write_record_within(limit: usize, r: &Record, room: usize) -> Result<Vec<u8>, Refusal> {
    if !(1..=limit).contains(&(r.number as usize)) || !is_outcome(r.outcome) || !is_text(&r.text) {
        return plain(7);
    }
    if !is_real_date(r.date) || !is_real_time(r.time) {
        return plain(5);
    }
    let bytes = record_bytes(r);
    if bytes.len() > room {
        return plain(8);
    }
    Ok(bytes)
}

/// Whole digits, as many as asked for.
fn digits(bytes: &[u8], width: usize) -> Option<u32> {
    (bytes.len() == width && bytes.iter().all(u8::is_ascii_digit)).then(|| std::str::from_utf8(bytes).unwrap().parse().unwrap())
}

/// The most digits that a number of 32 bits has room for, whichever they are.
const DIGITS_MOST: usize = 9;

/// What the bytes would be a record of: the writer decides whether they are.
fn guess(bytes: &[u8]) -> Option<Record> {
    let quotes: Vec<usize> = (0..bytes.len()).filter(|i| bytes[*i] == 34).collect();
    let [open, close] = quotes[..] else { return None };
    let words: Vec<&[u8]> = bytes[..open].split(|b| *b == b' ').collect();
    let (number, outcome) = match words[..] {
        [_, number, b"PROCESSED", b""] => (number, Outcome::Processed),
        [_, number, b"ERROR", class, code, b""] => (number, Outcome::Error { class: digits(class, 2)?, code: digits(code, 8)? }),
        _ => return None,
    };
    let moment = bytes.get(close + 1..)?;
    let [b' ', date @ .., b':', m0, m1, b':', s0, s1, b';', b'\r', b'\n'] = moment else { return None };
    let [date @ .., b' ', h0, h1] = date else { return None };
    Some(Record {
        number: (1..=DIGITS_MOST).find_map(|width| digits(number, width))?,
        outcome,
        text: bytes[open + 1..close].to_vec(),
        date: digits(date, 8)?,
        time: digits(&[*h0, *h1, *m0, *m1, *s0, *s1], 6)?,
    })
}

/// "The reader takes one whole record and nothing beyond. Any other bytes get 7." With the place where its text begins.
pub fn read_record(bytes: &[u8]) -> Result<(Record, usize), Refusal> {
    read_record_within(COMMANDS, bytes)
}

/// The same where the limit of n is another, as it is for a host that was built before P6.
pub fn read_record_within(limit: usize, bytes: &[u8]) -> Result<(Record, usize), Refusal> {
    if let Some(r) = guess(bytes) {
        if write_record_within(limit, &r, usize::MAX).as_deref() == Ok(bytes) {
            let open = bytes.iter().position(|b| *b == 34).unwrap();
            return Ok((r, open + 1));
        }
    }
    plain(7)
}
