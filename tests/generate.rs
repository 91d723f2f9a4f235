//! Legal and damaged job files, moments and values, records, reports, names, numbers and session tables.

use crate::random::Random;
use crate::reference::calendar::{is_real_date, is_real_time};
use crate::reference::job::{read_statement, Missing, OLD_STATEMENTS, STATEMENTS};
use crate::reference::record::{record_bytes, Outcome, Record, COMMANDS, OLD_COMMANDS};
use crate::reference::report::{COLUMNS, DELIMITERS};
use crate::reference::table;
use crate::reference::token::{OPERATORS, RESERVED};

// ---- tokens

pub fn word(r: &mut Random) -> Vec<u8> {
    let length = match r.below(40) {
        0 => 255,
        1 => r.from(2, 254),
        _ => r.from(1, 6),
    };
    word_of(r, length)
}

fn word_of(r: &mut Random, length: usize) -> Vec<u8> {
    let first = b"abcxyzABCJTXZ";
    let rest = b"abcxyzABCJTXZ0123456789_";
    let mut w = vec![r.pick(first)];
    while w.len() < length {
        w.push(r.pick(rest));
    }
    w
}

fn text_byte(r: &mut Random) -> u8 {
    loop {
        let b = match r.below(4) {
            0 => r.pick(b" \\//;;'=0aZ\x7f\x80\xfe\xfd ~!#"),
            1 => r.from(32, 254) as u8,
            _ => r.from(97, 122) as u8,
        };
        if b != 34 {
            return b;
        }
    }
}

pub fn text(r: &mut Random) -> Vec<u8> {
    let length = match r.below(30) {
        0 => 255,
        1 => r.from(0, 254),
        2 => 0,
        _ => r.from(0, 12),
    };
    (0..length).map(|_| text_byte(r)).collect()
}

fn quoted(r: &mut Random) -> Vec<u8> {
    [b"\"", &text(r)[..], b"\""].concat()
}

fn digits(r: &mut Random, n: usize) -> Vec<u8> {
    (0..n).map(|_| if r.once_in(4) { b'0' } else { b'0' + r.below(10) as u8 }).collect()
}

fn number_run(r: &mut Random) -> Vec<u8> {
    let n = match r.below(6) {
        0 => 16,
        1 => 8,
        _ => r.from(1, 16),
    };
    let mut run = digits(r, n);
    if n > 1 && r.once_in(3) {
        run.insert(r.from(1, n - 1), b'.');
    }
    if r.once_in(3) {
        run.insert(0, b'-');
    }
    run
}

/// A date number, mostly real, else near one.
pub fn date(r: &mut Random) -> u32 {
    let any = r.below(10000) as u32;
    let year = r.pick(&[0, 1, 1900, 1997, 2000, 2024, 9999, any]);
    match r.below(12) {
        0 => year * 10000 + r.below(14) as u32 * 100 + r.below(33) as u32,
        1 => year * 10000 + r.pick(&[2, 4, 6, 9, 11]) * 100 + r.pick(&[29, 30, 31]),
        2 => r.pick(&[0, 100_000_101, 99_999_999, u32::MAX, 1_000_000, 101, 99_991_231]),
        _ => year * 10000 + r.from(1, 12) as u32 * 100 + r.from(1, 29) as u32,
    }
}

/// A time number, mostly real, else near one.
pub fn time(r: &mut Random) -> u32 {
    match r.below(12) {
        0 => r.pick(&[240000, 235960, 236000, 1_000_000, u32::MAX, 60, 6000, 99_999_999, 235959, 0]),
        1 => r.below(25) as u32 * 10000 + r.below(61) as u32 * 100 + r.below(61) as u32,
        _ => r.below(24) as u32 * 10000 + r.below(60) as u32 * 100 + r.below(60) as u32,
    }
}

fn time_run(r: &mut Random) -> Vec<u8> {
    let n = time(r) % 1_000_000;
    format!("{:02}:{:02}:{:02}", n / 10000, n / 100 % 100, n % 100).into_bytes()
}

fn date_run(r: &mut Random) -> Vec<u8> {
    format!("{:08}", date(r) % 100_000_000).into_bytes()
}

/// Any token at all, and now and then bytes that are none.
fn any_token(r: &mut Random) -> Vec<u8> {
    match r.below(16) {
        0 | 1 => r.pick(&RESERVED).to_vec(),
        2 => word(r),
        3 => quoted(r),
        4 => number_run(r),
        5 => time_run(r),
        6 => date_run(r),
        7 => r.pick(&OPERATORS).to_vec(),
        8 => b";".to_vec(),
        9 => b"TIME>=".to_vec(),
        10 => {
            let n = r.from(256, 300);
            word_of(r, n)
        }
        11 => {
            let n = r.from(254, 258);
            let end: &[u8] = r.pick(&[b"\"" as &[u8], b"", b"\t", b"\n\"", b"\xff"]);
            [b"\"", &vec![b'q'; n][..], end].concat()
        }
        12 => digits(r, 17),
        13 => r.pick(&[b"5." as &[u8], b"1.2.3", b"1e5", b"12:00", b"-12:00:00", b"--1", b".5", b"-", b"!", b"/", b"5x", b"1-1", b"2024.0430"]).to_vec(),
        14 => r
            .pick(&[b"job" as &[u8], b"TIME >=", b"TIME>==", b"xTIME>=", b"TIMES>=", b"JOBS", b"SET", b"==", b"=>", b"<>", b"! =", b"\"a", b"\"a\tb\"", b"\"\""])
            .to_vec(),
        _ => vec![r.below(256) as u8],
    }
}

// ---- statements and job files

fn target(r: &mut Random) -> Vec<u8> {
    match r.below(3) {
        0 => b"ACTIVE".to_vec(),
        1 => quoted(r),
        _ => word(r),
    }
}

/// A start clause, or now and then none where it may be missing.
fn clause(r: &mut Random, may_lack: bool) -> Vec<Vec<u8>> {
    let start = b"START".to_vec();
    match r.below(6) {
        0 | 1 if may_lack => vec![],
        0..=2 => vec![start, b"IMMEDIATE".to_vec()],
        3 => vec![start, b"TIME>=".to_vec(), time_run(r)],
        4 => vec![start, b"TIME>=".to_vec(), time_run(r), date_run(r)],
        _ => vec![start, word(r), r.pick(&OPERATORS).to_vec(), if r.once_in(2) { number_run(r) } else { quoted(r) }],
    }
}

fn job_tokens(r: &mut Random) -> Vec<Vec<u8>> {
    vec![b"JOB".to_vec(), word(r), b"RESPONSE".to_vec(), quoted(r), b";".to_vec()]
}

fn later_tokens(r: &mut Random, may_lack: bool) -> Vec<Vec<u8>> {
    let mut tokens = match r.below(6) {
        0 => vec![b"GETINFO".to_vec(), quoted(r)],
        1 => vec![b"ABORT".to_vec(), r.pick(&[b"REPORT" as &[u8], b"EVENT"]).to_vec(), word(r)],
        _ => {
            let mut t = vec![r.pick(&[b"UPLOAD" as &[u8], b"DOWNLOAD"]).to_vec(), quoted(r), target(r)];
            t.extend(clause(r, may_lack));
            t
        }
    };
    tokens.push(b";".to_vec());
    tokens
}

fn blank(r: &mut Random, out: &mut Vec<u8>) {
    match r.below(12) {
        0 => out.extend(b"\r\n"),
        1 => out.push(b'\t'),
        2 => out.extend(b"  "),
        3 => {
            out.extend(b"//");
            for _ in 0..r.below(20) {
                let b = r.below(256) as u8;
                if b != b'\r' && b != b'\n' {
                    out.push(b);
                }
            }
            out.push(r.pick(b"\r\n"));
        }
        _ => out.push(b' '),
    }
}

/// The tokens with blanks between them: always where two would run together, else often.
fn spaced(r: &mut Random, tokens: &[Vec<u8>]) -> Vec<u8> {
    let wordy = |b: u8| b.is_ascii_alphanumeric() || b == b'_' || b == b'.' || b == b':';
    let tight = r.once_in(4);
    let mut out = Vec::new();
    if r.once_in(8) {
        blank(r, &mut out);
    }
    for t in tokens {
        let joins = out.last().zip(t.first()).is_some_and(|(a, b)| (wordy(*a) && wordy(*b)) || (b"!=<>".contains(a) && *b == b'=') || (out.ends_with(b"TIME") && *b == b'>'));
        if joins || !(tight || t == b";") || r.once_in(20) {
            blank(r, &mut out);
        }
        out.extend(t);
    }
    if r.once_in(4) {
        blank(r, &mut out);
    }
    out
}

fn damage_tokens(r: &mut Random, tokens: &mut Vec<Vec<u8>>) {
    let i = r.below(tokens.len());
    match r.below(4) {
        0 => drop(tokens.remove(i)),
        1 => tokens[i] = any_token(r),
        2 => tokens.insert(i, any_token(r)),
        _ => {
            let j = r.below(tokens.len());
            tokens.swap(i, j)
        }
    }
    if tokens.is_empty() {
        tokens.push(any_token(r));
    }
}

pub fn damage_bytes(r: &mut Random, bytes: &mut Vec<u8>) {
    let b = if r.once_in(2) { r.pick(b"\" ;,|/=<>-.:_09aZ\r\n\t!\\") } else { r.below(256) as u8 };
    let n = bytes.len();
    match r.below(4) {
        0 => bytes.truncate(r.below(n + 1)),
        1 if n > 0 => bytes[r.below(n)] = b,
        2 if n > 0 => drop(bytes.remove(r.below(n))),
        _ => bytes.insert(r.below(n + 1), b),
    }
}

/// The most statements of a short file.
const FEW: usize = 6;

/// How many statements: mostly few, often around the limit and around the one before P6.
fn statement_count(r: &mut Random) -> usize {
    match r.below(80) {
        0 => STATEMENTS,
        1 => STATEMENTS + 1,
        2 => r.pick(&[OLD_STATEMENTS, OLD_STATEMENTS + 1, STATEMENTS - 1]),
        3 => r.from(2, STATEMENTS + FEW),
        _ => r.from(1, FEW),
    }
}

/// The tokens of a statement that is taken: no time or date in it is unreal.
fn taken_tokens(r: &mut Random, may_lack: bool) -> Vec<Vec<u8>> {
    loop {
        let tokens = later_tokens(r, may_lack);
        if read_statement(&tokens.join(&b' '), Missing::Immediate, 0).is_ok() {
            return tokens;
        }
    }
}

/// In every other file no clause is left out, so that either setting takes some. A long file is made of a few statements that are taken, else
/// hardly one would be read up to its end.
pub fn job_file(r: &mut Random) -> Vec<u8> {
    let mut tokens = job_tokens(r);
    let may_lack = r.once_in(2);
    let count = statement_count(r);
    let again: Vec<_> = if count > FEW { (0..FEW).map(|_| taken_tokens(r, may_lack)).collect() } else { Vec::new() };
    for _ in 1..count {
        tokens.extend(if again.is_empty() { later_tokens(r, may_lack) } else { again[r.below(FEW)].clone() });
    }
    for _ in 0..r.pick(&[0, 0, 0, 1, 1, 2]) {
        damage_tokens(r, &mut tokens);
    }
    if r.once_in(6) {
        tokens.push(any_token(r));
    }
    let mut file = spaced(r, &tokens);
    for _ in 0..r.pick(&[0, 0, 0, 1, 1, 3]) {
        damage_bytes(r, &mut file);
    }
    file
}

/// A job file near the limit of 65,535 bytes: a comment takes up the rest.
pub fn long_file(r: &mut Random) -> Vec<u8> {
    let mut file = job_file(r);
    let length = r.pick(&[65_534, 65_535, 65_535, 65_536, 70_000]);
    let filler = b"// filler\n";
    let at = if r.once_in(2) { file.len() } else { 0 };
    let mut fill = b"\n".to_vec();
    while fill.len() + file.len() < length {
        fill.push(filler[fill.len() % filler.len()]);
    }
    file.splice(at..at, fill);
    file.truncate(length);
    file
}

/// Statements read on their own: one begins at the offset given, which is now and then another.
pub fn statement_file(r: &mut Random) -> (Vec<u8>, usize) {
    let mut tokens = if r.once_in(6) { job_tokens(r) } else { later_tokens(r, true) };
    for _ in 0..r.pick(&[0, 0, 0, 1, 1, 2]) {
        damage_tokens(r, &mut tokens);
    }
    let before: Vec<u8> = (0..r.below(9)).map(|_| r.below(256) as u8).collect();
    let mut file = spaced(r, &tokens);
    if r.once_in(3) {
        damage_bytes(r, &mut file);
    }
    let file = [&before[..], &file, &any_token(r)].concat();
    let at = match r.below(8) {
        0 => r.below(file.len() + 4),
        1 => file.len() - r.below(3).min(file.len()),
        2 => r.pick(&[usize::MAX, usize::MAX - 1, 1 << 32, (1 << 32) + before.len(), 65_536]),
        _ => before.len(),
    };
    (file, at)
}

/// A statement other than JOB, with its start clause, and nothing damaged.
pub fn whole_statement(r: &mut Random) -> Vec<u8> {
    let tokens = later_tokens(r, false);
    spaced(r, &tokens)
}

/// A place of a file: mostly one with a quote.
pub fn quote(r: &mut Random, file: &[u8]) -> usize {
    let quotes: Vec<usize> = (0..file.len()).filter(|i| file[*i] == 34).collect();
    let any = r.below(file.len() + 3);
    if quotes.is_empty() || r.once_in(6) { r.pick(&[file.len(), usize::MAX, any]) } else { r.pick(&quotes) }
}

// ---- moments and values for start clauses

/// The day before, or the same where there is none. Days that follow each other are never 9000 apart.
fn day_before(day: u32) -> u32 {
    (day.saturating_sub(9000)..day).rev().find(|d| is_real_date(*d)).unwrap_or(day)
}

/// The day after, or the same where there is none.
fn day_after(day: u32) -> u32 {
    (day..day.saturating_add(9000)).skip(1).find(|d| is_real_date(*d)).unwrap_or(day)
}

/// A second before a real time of a day.
fn second_before(day: u32, real: u32) -> (u32, u32) {
    (0..real).rev().find(|t| is_real_time(*t)).map_or((day_before(day), 235_959), |t| (day, t))
}

/// A second after it.
fn second_after(day: u32, real: u32) -> (u32, u32) {
    (real + 1..240_000).find(|t| is_real_time(*t)).map_or((day_after(day), 0), |t| (day, t))
}

/// The same day, one beside it, or any date.
pub fn near_date(r: &mut Random, day: u32) -> u32 {
    match r.below(5) {
        0 | 1 => day,
        2 => day_before(day),
        3 => day_after(day),
        _ => date(r),
    }
}

/// A moment at a real time of a day, a second or a day before it or after it, at an end of that day or of one beside it, or any.
pub fn near_moment(r: &mut Random, day: u32, real: u32) -> (u32, u32) {
    match r.below(11) {
        0 | 1 => (day, real),
        2 => second_before(day, real),
        3 => second_after(day, real),
        4 => (day_before(day), real),
        5 => (day_after(day), real),
        6 => (day_before(day), 235_959),
        7 => (day_after(day), 0),
        8 => (day, r.pick(&[0, 235_959])),
        9 => (day, time(r)),
        _ => (date(r), time(r)),
    }
}

/// A mantissa and a scale, at the ends of what is permitted and beyond.
pub fn any_number(r: &mut Random) -> (i64, u32) {
    let most = 9_999_999_999_999_999;
    let any = r.next() as i64 >> r.below(64);
    let mantissa = r.pick(&[i64::MIN, -most - 1, -most, -1, 0, 1, most, most + 1, i64::MAX, any]);
    (mantissa, r.pick(&[0, 0, 1, 1, 15, 15, 16, u32::MAX]))
}

/// The same value with more zeros after the point or with fewer, one unit more or less in the last place, the other sign, another scale,
/// zero, or any number.
pub fn near_number(r: &mut Random, mut mantissa: i64, mut scale: u32) -> (i64, u32) {
    for _ in 0..r.pick(&[0, 0, 1, 2, 15]) {
        if mantissa.unsigned_abs() < 10u64.pow(15) && scale < 15 {
            (mantissa, scale) = (10 * mantissa, scale + 1);
        }
    }
    while mantissa % 10 == 0 && scale > 0 && r.once_in(3) {
        (mantissa, scale) = (mantissa / 10, scale - 1);
    }
    match r.below(12) {
        0..=4 => (mantissa, scale),
        5 | 6 => (mantissa.wrapping_add(1), scale),
        7 | 8 => (mantissa.wrapping_sub(1), scale),
        9 => (mantissa.wrapping_neg(), scale),
        10 => (r.pick(&[mantissa, 0]), r.pick(&[0, 1, 15])),
        _ => any_number(r),
    }
}

/// A string's content at the ends of its length and beyond, now and then with a byte at or beyond the ends of what is permitted.
pub fn any_text(r: &mut Random) -> Vec<u8> {
    let mut content = vec![b't'; r.pick(&[0, 1, 2, 254, 255, 256])];
    if !content.is_empty() && r.once_in(3) {
        let at = r.below(content.len());
        content[at] = r.pick(&[0, 31, 32, 33, 34, 35, 254, 255]);
    }
    content
}

/// The same content, its beginning, a byte more, a byte changed, or any.
pub fn near_text(r: &mut Random, content: &[u8]) -> Vec<u8> {
    let mut near = content.to_vec();
    match r.below(8) {
        0..=3 => {}
        4 => drop(near.pop()),
        5 => near.push(text_byte(r)),
        6 => damage_bytes(r, &mut near),
        _ => near = any_text(r),
    }
    near
}

// ---- records

pub fn outcome(r: &mut Random) -> Outcome {
    if r.once_in(2) {
        return Outcome::Processed;
    }
    let class = if r.once_in(12) { r.pick(&[100, 255, 256, u32::MAX]) } else { r.below(100) as u32 };
    let code = match r.below(12) {
        0 => r.pick(&[100_000_000, u32::MAX, 1 << 27]),
        1 => r.pick(&[0, 1, 99_999_999, 10_000_000, 9_999_999]),
        _ => r.below(100_000_000) as u32,
    };
    Outcome::Error { class, code }
}

/// How many commands, or which one: any that the limit permits, often at an end of those, beside the limit before P6, or where the digits
/// become more.
pub fn command_count(r: &mut Random, limit: usize) -> usize {
    let any = r.from(1, limit);
    r.pick(&[any, any, any, 1, 9, 10, 99, 100, OLD_COMMANDS, OLD_COMMANDS + 1, limit - 1, limit]).min(limit)
}

pub fn record(r: &mut Random) -> Record {
    let number = if r.once_in(12) { r.pick(&[0, COMMANDS as u32 + 1, 1000, u32::MAX]) } else { command_count(r, COMMANDS) as u32 };
    let mut text = text(r);
    if r.once_in(12) {
        damage_bytes(r, &mut text);
    }
    if r.once_in(20) {
        text = vec![b't'; r.from(254, 257)];
    }
    Record { number, outcome: outcome(r), text, date: date(r), time: time(r) }
}

/// Bytes that are a record, or nearly one.
pub fn record_input(r: &mut Random) -> Vec<u8> {
    let mut bytes = record_bytes(&record(r));
    for _ in 0..r.pick(&[0, 0, 1, 1, 2]) {
        damage_bytes(r, &mut bytes);
    }
    if r.once_in(20) {
        bytes.extend(record_bytes(&record(r)));
    }
    if r.once_in(20) && bytes.len() > 8 {
        bytes = [b"COMMAND 0", &bytes[8..]].concat();
    }
    if r.once_in(10) && !bytes.is_empty() {
        let n = bytes.len();
        bytes.swap(r.below(n), r.below(n));
    }
    bytes
}

// ---- reports

/// The names of a report, and then its lines of values.
pub type Rows = Vec<Vec<Vec<u8>>>;

/// Mostly few, often around the limit.
fn column_count(r: &mut Random) -> usize {
    match r.below(40) {
        0 => COLUMNS,
        1 => r.from(6, COLUMNS),
        2 => 1,
        _ => r.from(1, 5),
    }
}

/// A string with delimiters and signs in it, at its edges too.
fn delimited_text(r: &mut Random) -> Vec<u8> {
    let content: Vec<u8> = (0..r.below(5)).map(|_| r.pick(b",;|,;| -.a0\xfe")).collect();
    [b"\"", &content[..], b"\""].concat()
}

fn value(r: &mut Random) -> Vec<u8> {
    match r.below(8) {
        0..=2 => number_run(r),
        3 => r.pick(&[b"-0" as &[u8], b"007", b"2.50", b"0", b"-0.0", b"9999999999999999", b"-0.000000000000001", b"20240431"]).to_vec(),
        4 | 5 => delimited_text(r),
        _ => quoted(r),
    }
}

pub fn rows(r: &mut Random) -> Rows {
    let columns = column_count(r);
    let lines = if columns > 5 { r.below(3) } else { r.below(6) };
    let names = (0..columns).map(|_| word(r)).collect();
    let values = (0..lines).map(|_| (0..columns).map(|_| value(r)).collect());
    [names].into_iter().chain(values).collect()
}

/// A field that stands in no report, or not everywhere.
fn any_field(r: &mut Random) -> Vec<u8> {
    match r.below(8) {
        0 => vec![],
        1 => word(r),
        2 => value(r),
        3 => [value(r), value(r)].concat(),
        4 => [b" ", &value(r)[..]].concat(),
        5 => [&value(r)[..], b" "].concat(),
        _ => any_token(r),
    }
}

pub fn damage_rows(r: &mut Random, rows: &mut Rows) {
    let i = r.below(rows.len());
    let j = r.below(rows[i].len().max(1));
    match r.below(7) {
        0 => drop(rows.remove(i)),
        1 => rows.insert(i, vec![]),
        2 if !rows[i].is_empty() => drop(rows[i].remove(j)),
        3 => rows[i].insert(j, any_field(r)),
        4 => rows.swap(0, i),
        5 => {
            let columns = r.pick(&[COLUMNS, COLUMNS + 1]);
            for row in rows.iter_mut() {
                let more = row.first().cloned().unwrap_or_default();
                row.resize(columns, more);
            }
        }
        _ if !rows[i].is_empty() => rows[i][j] = any_field(r),
        _ => {}
    }
    if rows.is_empty() {
        rows.push(vec![any_field(r)]);
    }
}

/// The rows as a file.
pub fn report_text(rows: &Rows, delimiter: u8) -> Vec<u8> {
    rows.iter().flat_map(|row| [&row.join(&delimiter), &b"\r\n"[..]].concat()).collect()
}

/// A report file, or nearly one.
pub fn report_file(r: &mut Random, delimiter: u8) -> Vec<u8> {
    let mut rows = rows(r);
    for _ in 0..r.pick(&[0, 0, 0, 1, 1, 2]) {
        damage_rows(r, &mut rows);
    }
    let mut file = Vec::new();
    for row in &rows {
        let between = if r.once_in(30) { r.pick(&DELIMITERS) } else { delimiter };
        file.extend(row.join(&between));
        file.extend(if r.once_in(40) { r.pick(&[b"\n" as &[u8], b"\r", b"", b"\n\r", b"\r\r\n", b"\r\n\r\n", b" \r\n"]) } else { b"\r\n" });
    }
    for _ in 0..r.pick(&[0, 0, 0, 1, 1, 3]) {
        damage_bytes(r, &mut file);
    }
    file
}

/// A source that holds the fields of the rows in any order with other bytes between, and the place and length of each field in it.
pub fn scattered(r: &mut Random, rows: &Rows) -> (Vec<u8>, Vec<usize>) {
    let fields = rows.concat();
    let mut order: Vec<usize> = (0..fields.len()).collect();
    for i in 1..order.len() {
        order.swap(i, r.below(i + 1));
    }
    let mut source = Vec::new();
    let mut numbers = vec![0; 2 * fields.len()];
    for i in order {
        source.extend((0..r.below(3)).map(|_| r.below(256) as u8));
        numbers[2 * i] = source.len();
        numbers[2 * i + 1] = fields[i].len();
        source.extend(&fields[i]);
    }
    (source, numbers)
}

/// Changes the numbers of one cell, or their count.
pub fn damage_cells(r: &mut Random, numbers: &mut Vec<usize>, source_bytes: usize) {
    if numbers.len() < 2 {
        return numbers.push(r.below(source_bytes + 2));
    }
    let i = r.below(numbers.len() / 2) * 2;
    let end = numbers[i].wrapping_add(numbers[i + 1]);
    match r.below(8) {
        0 => drop(numbers.pop()),
        1 => numbers.push(0),
        2 => numbers.truncate(i),
        3 => drop(numbers.drain(i..i + 2)),
        4 => numbers[i + r.below(2)] = r.pick(&[0, 1, source_bytes, source_bytes + 1, usize::MAX, usize::MAX - 1, 1 << 63, 1 << 32]),
        5 => {
            let n = &mut numbers[i + r.below(2)];
            *n = if r.once_in(2) { n.wrapping_add(1) } else { n.wrapping_sub(1) };
        }
        6 => {
            // The sum of place and length is right where it is taken modulo 2^64.
            numbers[i + 1] = r.pick(&[usize::MAX, usize::MAX - 1, 1 << 63]);
            numbers[i] = end.wrapping_sub(numbers[i + 1]);
        }
        _ => {
            let n = numbers.len();
            numbers.swap(i, r.below(n));
        }
    }
}

// ---- names

pub fn max(r: &mut Random) -> u32 {
    if r.once_in(10) { r.pick(&[0, 33, 256, u32::MAX]) } else { r.from(1, 32) as u32 }
}

pub fn session_number(r: &mut Random, max: u32) -> u32 {
    match r.below(8) {
        0 => max,
        1 => max.wrapping_sub(1),
        2 => r.pick(&[9999, 10000, u32::MAX, 33]),
        _ => r.below(34) as u32,
    }
}

pub fn name_input(r: &mut Random, max: u32) -> Vec<u8> {
    let mut bytes = format!("SESS{:04}.{}", session_number(r, max), r.pick(&["REQ", "RSP"])).into_bytes();
    if r.once_in(3) {
        damage_bytes(r, &mut bytes);
    }
    if r.once_in(10) {
        bytes.make_ascii_lowercase();
    }
    bytes
}

// ---- session tables

/// Numbers at and beside the ends of what may stand in a column: of the table's own row, of a session's head, of an answer.
fn near(r: &mut Random, row: usize, command: usize, column: usize) -> u32 {
    match (row, command, column) {
        (0, _, 0) => r.pick(&[0, 1, 31, 32, 33]),
        (0, _, 1) => r.pick(&[0, 1, 2, 5, u32::MAX]),
        (0, _, _) => r.from(0, 34) as u32,
        (_, 0, table::TAKEN) => r.pick(&[0, 1, 2, u32::MAX]),
        (_, 0, table::PROGRAM) => r.pick(&[0, 1, 7, 8, 9]),
        (_, 0, table::COUNT) | (_, 0, table::ANSWERED) => {
            r.pick(&[0, 1, 2, 3, OLD_COMMANDS, OLD_COMMANDS + 1, COMMANDS - 1, COMMANDS, COMMANDS + 1]) as u32
        }
        (_, 0, _) => r.pick(&[0, 1, 2, 3, u32::MAX]),
        (_, _, 0) => r.pick(&[0, 1, 99, 100, 101, u32::MAX]),
        (_, _, 1) => r.pick(&[0, 99_999_999, 100_000_000, u32::MAX]),
        (_, _, 2) => date(r),
        _ => time(r),
    }
}

/// Changes one number of the table to what may stand there or may not: mostly one that counts. Memory that is too short for a table stays.
pub fn damage_table(r: &mut Random, bytes: &mut [u8]) {
    if bytes.len() < table::TABLE_BYTES {
        return;
    }
    let standing: Vec<usize> = (0..table::SESSIONS).filter(|s| table::number(bytes, table::row_of(*s, 0), table::TAKEN) != 0).collect();
    let session = if standing.is_empty() || r.once_in(6) { r.below(table::SESSIONS) } else { r.pick(&standing) };
    let answered = table::number(bytes, table::row_of(session, 0), table::ANSWERED) as usize;
    let command = match r.below(3) {
        0 => 0,
        1 if (1..=COMMANDS).contains(&answered) => r.from(1, answered),
        _ => r.below(COMMANDS + 1),
    };
    let row = if r.once_in(4) { 0 } else { table::row_of(session, command) };
    let column = r.below(if row != 0 && command == 0 { 5 } else { 4 });
    let old = table::number(bytes, row, column);
    let value = match r.below(6) {
        0 => old.wrapping_add(1),
        1 => old.wrapping_sub(1),
        2 => old ^ (1 << r.below(32)),
        3 if !standing.is_empty() => {
            let other = r.pick(&standing);
            table::number(bytes, table::row_of(other, 0), table::TICKET)
        }
        _ => near(r, row, command, column),
    };
    table::put_number(bytes, row, column, value);
}
