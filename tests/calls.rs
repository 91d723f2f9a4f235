//! The calls that keep nothing: job files, records, names, dates and times.

use crate::generate as make;
use crate::library::{returned, Library, Message};
use crate::random::Random;
use crate::reference::calendar::{is_real_date, is_real_time};
use crate::reference::job::{self, Body, Missing, Source, Span, Start, Statement, Value, OLD_STATEMENTS, SETTINGS, STATEMENTS};
use crate::reference::name::{read_name, write_name, Kind};
use crate::reference::record::{read_record, write_record, Outcome, Record};
use crate::reference::{plain, Refusal};

/// What stands in a number before a call that may write it, and in a byte of room.
const BEFORE: u64 = 77;
pub const ROOM_BEFORE: u8 = 0x5A;

/// The answer of a call that writes into room: what it returns, how many bytes it wrote, and the room at exit.
pub fn written(answer: &Result<Vec<u8>, Refusal>, room: usize) -> Message {
    let mut at_exit = vec![ROOM_BEFORE; room];
    if let Ok(bytes) = answer {
        at_exit[..bytes.len()].copy_from_slice(bytes);
    }
    let count = answer.as_ref().map_or(BEFORE, |bytes| bytes.len() as u64);
    Message::default().number(returned(answer)).number(count).bytes(&at_exit)
}

/// The numbers that a call gives, or what stood there before.
pub fn given<T, const N: usize>(answer: &Result<T, Refusal>, numbers: impl Fn(&T) -> [u64; N]) -> Message {
    let values = answer.as_ref().map_or([BEFORE; N], numbers);
    Message::default().number(returned(answer)).numbers(&values)
}

/// P7's setting as C gives it: whether a start clause is optional.
fn optional(missing: Missing) -> u64 {
    (missing == Missing::Immediate) as u64
}

fn expect_job_with(l: &mut Library, file: &[u8], missing: Missing, places: usize) {
    let answer = job::read_job(file, missing, places);
    let mut offsets = vec![u32::from_le_bytes([ROOM_BEFORE; 4]); places];
    if let Ok(taken) = &answer {
        offsets[..taken.len()].copy_from_slice(taken);
    }
    let bytes: Vec<u8> = offsets.iter().flat_map(|o| o.to_le_bytes()).collect();
    let request = Message::call(b'J').lent(file).numbers(&[optional(missing), places as u64]);
    l.expect(request, given(&answer, |taken| [taken.len() as u64]).bytes(&bytes));
}

/// A file, with either setting.
pub fn expect_job(l: &mut Library, file: &[u8], places: usize) {
    for missing in SETTINGS {
        expect_job_with(l, file, missing, places);
    }
}

fn span(s: Span) -> [u64; 2] {
    [s.start as u64, s.length as u64]
}

fn source_numbers(source: Source) -> [u64; 4] {
    match source {
        Source::Active => [1, 0, 0, 0],
        Source::File(quote) => [2, quote as u64, 0, 0],
        Source::Name(name) => [3, 0, span(name)[0], span(name)[1]],
    }
}

/// The clause's members from start_kind on.
fn start_numbers(start: Start) -> [u64; 10] {
    match start {
        Start::Immediate => [1, 0, 0, 0, 0, 0, 0, 0, 0, 0],
        Start::Time { time, date } => [2, time as u64, date.unwrap_or(0) as u64, 0, 0, 0, 0, 0, 0, 0],
        Start::Condition { name, operator, value } => {
            let [place, length] = span(name);
            match value {
                Value::Number { mantissa, scale } => [3, 0, 0, place, length, operator as u64, 1, 0, scale as u64, mantissa as u64],
                Value::Text(quote) => [3, 0, 0, place, length, operator as u64, 2, quote as u64, 0, 0],
            }
        }
    }
}

/// The members in the header's order.
pub fn statement_numbers(s: &Statement) -> [u64; 21] {
    let (kind, file, name, aborted, rest) = match s.body {
        Body::Job { name, response } => (1, response, span(name), 0, None),
        Body::Upload { file, source, start } => (2, file, [0, 0], 0, Some((source, start))),
        Body::Download { file, source, start } => (3, file, [0, 0], 0, Some((source, start))),
        Body::Getinfo { file } => (4, file, [0, 0], 0, None),
        Body::AbortReport { name } => (5, 0, span(name), 1, None),
        Body::AbortEvent { name } => (5, 0, span(name), 2, None),
    };
    let source = rest.map_or([0; 4], |(source, _)| source_numbers(source));
    let start = rest.map_or([0; 10], |(_, start)| start_numbers(start));
    let mut members = [0; 21];
    members[..7].copy_from_slice(&[kind, s.offset as u64, s.next as u64, file as u64, name[0], name[1], aborted]);
    members[7..11].copy_from_slice(&source);
    members[11..].copy_from_slice(&start);
    members
}

pub fn expect_statement(l: &mut Library, file: &[u8], at: usize) {
    for missing in SETTINGS {
        let answer = job::read_statement(file, missing, at);
        let request = Message::call(b'S').lent(file).numbers(&[optional(missing), at as u64]);
        l.expect(request, given(&answer, statement_numbers).twice());
    }
}

pub fn expect_text(l: &mut Library, file: &[u8], quote: usize) {
    let text = job::text_at(file, quote);
    let answer = Message::default().number(text.is_some() as u64).number(text.unwrap_or(0) as u64);
    l.expect(Message::call(b'T').lent(file).number(quote as u64), answer);
}

pub fn expect_calendar(l: &mut Library, n: u32) {
    let answer = Message::default().number(is_real_date(n) as u64).number(is_real_time(n) as u64);
    l.expect(Message::call(b'D').number(n as u64), answer);
}

/// An outcome as the header's number, class and code.
pub fn outcome_numbers(o: Outcome) -> [u64; 3] {
    match o {
        Outcome::Processed => [0, 0, 0],
        Outcome::Error { class, code } => [1, class as u64, code as u64],
    }
}

/// An outcome in numbers, now and then with a class and code beside PROCESSED, or a number that is no outcome's.
pub fn outcome_given(r: &mut Random) -> (Outcome, [u64; 3]) {
    let o = make::outcome(r);
    let mut numbers = outcome_numbers(o);
    if o == Outcome::Processed && r.once_in(4) {
        numbers = [0, 200, u32::MAX as u64];
    }
    if r.once_in(30) {
        numbers[0] = r.pick(&[2, 3, 256, u32::MAX as u64]);
        return (Outcome::Error { class: 100, code: 0 }, numbers);
    }
    (o, numbers)
}

pub fn expect_record_written(l: &mut Library, record: &Record, outcome: [u64; 3], room: usize) {
    let request = Message::call(b'W')
        .lent(&record.text)
        .number(record.number as u64)
        .numbers(&outcome)
        .numbers(&[record.date as u64, record.time as u64, room as u64]);
    l.expect(request, written(&write_record(record, room), room));
}

pub fn expect_record_read(l: &mut Library, bytes: &[u8]) {
    let answer = given(&read_record(bytes), |(r, text)| {
        let [outcome, class, code] = outcome_numbers(r.outcome);
        [r.number as u64, outcome, class, code, *text as u64, r.text.len() as u64, r.date as u64, r.time as u64]
    });
    l.expect(Message::call(b'R').lent(bytes), answer.twice());
}

fn kind_number(kind: Kind) -> u64 {
    match kind {
        Kind::Request => 0,
        Kind::Response => 1,
    }
}

pub fn expect_name_read(l: &mut Library, name: &[u8], max: u32) {
    let answer = given(&read_name(name, max), |(number, kind)| [*number as u64, kind_number(*kind)]);
    l.expect(Message::call(b'N').lent(name).number(max as u64), answer);
}

pub fn expect_name_written(l: &mut Library, number: u32, kind: u64, max: u32, room: usize) {
    let answer = match kind {
        0 => write_name(number, Kind::Request, max, room),
        1 => write_name(number, Kind::Response, max, room),
        _ => plain(11),
    };
    l.expect(Message::call(b'O').numbers(&[number as u64, kind, max as u64, room as u64]), written(&answer, room));
}

fn job_calls(r: &mut Random, l: &mut Library) {
    let file = if r.once_in(60) { make::long_file(r) } else { make::job_file(r) };
    let few = r.pick(&[0, 1, 2, 5, OLD_STATEMENTS, STATEMENTS - 1]);
    let places = r.pick(&[few, few, few, few, STATEMENTS, STATEMENTS, STATEMENTS, STATEMENTS, STATEMENTS + 1, STATEMENTS + 6]);
    expect_job(l, &file, places);
    if let Ok(offsets) = job::read_job(&file, Missing::Immediate, STATEMENTS) {
        let at = r.pick(&offsets);
        expect_statement(l, &file, at as usize);
    }
    let at = r.below(file.len() + 1);
    expect_statement(l, &file, at);
    let quote = make::quote(r, &file);
    expect_text(l, &file, quote);
}

fn record_calls(r: &mut Random, l: &mut Library) {
    let (outcome, numbers) = outcome_given(r);
    let record = Record { outcome, ..make::record(r) };
    let length = write_record(&record, usize::MAX).map_or(300, |bytes| bytes.len());
    let room = r.pick(&[0, length - 1, length, length, length + 1, length + 40, 400]);
    expect_record_written(l, &record, numbers, room);
    expect_record_read(l, &make::record_input(r));
}

fn name_calls(r: &mut Random, l: &mut Library) {
    let max = make::max(r);
    expect_name_read(l, &make::name_input(r, max), max);
    let number = make::session_number(r, max);
    let kind = r.pick(&[0, 0, 0, 1, 1, 1, 2, u32::MAX as u64]);
    let room = r.pick(&[0, 11, 12, 12, 12, 13, 40]);
    expect_name_written(l, number, kind, max, room);
}

pub fn round(r: &mut Random, l: &mut Library) {
    for _ in 0..40 {
        job_calls(r, l);
        let (file, at) = make::statement_file(r);
        expect_statement(l, &file, at);
        record_calls(r, l);
        name_calls(r, l);
        expect_calendar(l, make::date(r));
        expect_calendar(l, make::time(r));
    }
}
