//! "The job grammar." A statement's forms are listed whole, each as a row of what stands at its first, second, .. token. A token fits
//! where one of the rows that fit so far has it next.

use super::calendar::{is_real_date, is_real_time};
use super::token::{self, date_value, next, number_value, text_length, time_value, Kind, Next, Token};
use super::{at, plain, Refusal};

#[derive(Clone, Copy, Debug, PartialEq, Eq)]
enum Want {
    Keyword(&'static [u8]),
    Name,
    Text,
    TimeFrom,
    Time,
    Date,
    Operator,
    Number,
    Semicolon,
}

fn keyword(word: &'static str) -> Want {
    Want::Keyword(word.as_bytes())
}

type Form = Vec<Want>;

/// "JOB, name, RESPONSE, file spec."
fn first_forms() -> Vec<Form> {
    vec![vec![keyword("JOB"), Want::Name, keyword("RESPONSE"), Want::Text, Want::Semicolon]]
}

/// P7's setting: "A missing clause shall now be refused. Callers .. may ask for the earlier reading".
#[derive(Clone, Copy, Debug, PartialEq, Eq)]
pub enum Missing {
    Refused,
    Immediate,
}

pub const SETTINGS: [Missing; 2] = [Missing::Refused, Missing::Immediate];

/// The forms of every other statement.
fn later_forms(missing: Missing) -> Vec<Form> {
    let mut clauses: Vec<Form> = vec![
        vec![keyword("START"), keyword("IMMEDIATE")],
        vec![keyword("START"), Want::TimeFrom, Want::Time],
        vec![keyword("START"), Want::TimeFrom, Want::Time, Want::Date],
        vec![keyword("START"), Want::Name, Want::Operator, Want::Number],
        vec![keyword("START"), Want::Name, Want::Operator, Want::Text],
    ];
    if missing == Missing::Immediate {
        clauses.push(vec![]);
    }
    let mut forms = Vec::new();
    for verb in ["UPLOAD", "DOWNLOAD"] {
        for target in [keyword("ACTIVE"), Want::Text, Want::Name] {
            for clause in &clauses {
                forms.push([&[keyword(verb), Want::Text, target], &clause[..], &[Want::Semicolon]].concat());
            }
        }
    }
    forms.push(vec![keyword("GETINFO"), Want::Text, Want::Semicolon]);
    for what in ["REPORT", "EVENT"] {
        forms.push(vec![keyword("ABORT"), keyword(what), Want::Name, Want::Semicolon]);
    }
    forms
}

fn all_forms(missing: Missing) -> Vec<Form> {
    [first_forms(), later_forms(missing)].concat()
}

fn bytes(file: &[u8], t: Token) -> &[u8] {
    &file[t.start..t.end]
}

/// Whether the token is one that is wanted.
fn fits(want: Want, file: &[u8], t: Token) -> bool {
    let run = bytes(file, t);
    match want {
        Want::Keyword(word) => t.kind == Kind::Word && run == word,
        Want::Name => t.kind == Kind::Word && !token::RESERVED.contains(&run),
        Want::Text => t.kind == Kind::Text,
        Want::TimeFrom => t.kind == Kind::TimeFrom,
        Want::Time => t.kind == Kind::Time && is_real_time(time_value(run)),
        Want::Date => t.kind == Kind::Number && date_value(run).is_some_and(is_real_date),
        Want::Operator => t.kind == Kind::Operator,
        Want::Number => t.kind == Kind::Number,
        Want::Semicolon => t.kind == Kind::Semicolon,
    }
}

/// "right shape of time or date where one may stand, but not a real one"
fn is_unreal(want: Want, file: &[u8], t: Token) -> bool {
    match want {
        Want::Time => t.kind == Kind::Time,
        Want::Date => t.kind == Kind::Number && date_value(bytes(file, t)).is_some(),
        _ => false,
    }
}

/// The tokens of the statement that begins at or after `from`, up to its `;`, where it has one of the forms.
fn statement_tokens(file: &[u8], from: usize, mut forms: Vec<Form>) -> Result<Vec<Token>, Refusal> {
    let mut tokens: Vec<Token> = Vec::new();
    let mut place = from;
    loop {
        let t = match next(file, place) {
            Next::NoToken(number, p) => return at(number, p),
            Next::End => return at(18, file.len()),
            Next::Token(t) => t,
        };
        let i = tokens.len();
        let left: Vec<Form> = forms.iter().filter(|f| fits(f[i], file, t)).cloned().collect();
        if left.is_empty() {
            let unreal = forms.iter().any(|f| is_unreal(f[i], file, t));
            return at(if unreal { 5 } else { 4 }, t.start);
        }
        forms = left;
        tokens.push(t);
        place = t.end;
        if t.kind == Kind::Semicolon {
            return Ok(tokens);
        }
    }
}

/// The most statements of a job file. P6: "Both limits go from 64 to 200."
pub const STATEMENTS: usize = 200;

/// The limit before P6.
pub const OLD_STATEMENTS: usize = 64;

/// The offsets of a job file's statements, where `places` are enough for them.
pub fn read_job(file: &[u8], missing: Missing, places: usize) -> Result<Vec<u32>, Refusal> {
    if file.len() > 65_535 {
        return plain(1);
    }
    let mut offsets = Vec::new();
    let mut place = 0;
    loop {
        match next(file, place) {
            Next::End if !offsets.is_empty() => break,
            Next::Token(t) if offsets.len() == STATEMENTS => return at(6, t.start),
            _ => {}
        }
        let forms = if offsets.is_empty() { first_forms() } else { later_forms(missing) };
        let tokens = statement_tokens(file, place, forms)?;
        offsets.push(tokens[0].start as u32);
        place = tokens[tokens.len() - 1].end;
    }
    if offsets.len() > places {
        return plain(2);
    }
    Ok(offsets)
}

/// Bytes of the file, by their place and their number.
#[derive(Clone, Copy, Debug, PartialEq, Eq)]
pub struct Span {
    pub start: usize,
    pub length: usize,
}

#[derive(Clone, Copy, Debug, PartialEq, Eq)]
pub enum Source {
    Active,
    /// A string, here and below, by the place of its opening quote.
    File(usize),
    Name(Span),
}

#[derive(Clone, Copy, Debug, PartialEq, Eq)]
pub enum Value {
    Number { mantissa: i64, scale: u32 },
    Text(usize),
}

#[derive(Clone, Copy, Debug, PartialEq, Eq)]
pub enum Start {
    Immediate,
    Time { time: u32, date: Option<u32> },
    /// The operator by its place in `= != > < >= <=`, counted from 1.
    Condition { name: Span, operator: u32, value: Value },
}

#[derive(Clone, Copy, Debug, PartialEq, Eq)]
pub enum Body {
    Job { name: Span, response: usize },
    Upload { file: usize, source: Source, start: Start },
    Download { file: usize, source: Source, start: Start },
    Getinfo { file: usize },
    AbortReport { name: Span },
    AbortEvent { name: Span },
}

#[derive(Clone, Copy, Debug, PartialEq, Eq)]
pub struct Statement {
    pub offset: usize,
    pub next: usize,
    pub body: Body,
}

fn word(t: Token) -> Span {
    Span { start: t.start, length: t.end - t.start }
}

fn operator_number(run: &[u8]) -> u32 {
    let order: [&[u8]; 6] = [b"=", b"!=", b">", b"<", b">=", b"<="];
    1 + order.iter().position(|o| *o == run).unwrap() as u32
}

/// A start clause without its `;`. "A missing clause reads as START IMMEDIATE."
fn start_of(file: &[u8], clause: &[Token]) -> Start {
    match clause {
        [] | [_, _] => Start::Immediate,
        [_, from, time] if from.kind == Kind::TimeFrom => Start::Time { time: time_value(bytes(file, *time)), date: None },
        [_, from, time, date] if from.kind == Kind::TimeFrom => {
            Start::Time { time: time_value(bytes(file, *time)), date: date_value(bytes(file, *date)) }
        }
        [_, name, operator, value] => Start::Condition {
            name: word(*name),
            operator: operator_number(bytes(file, *operator)),
            value: if value.kind == Kind::Text {
                Value::Text(value.start)
            } else {
                let (mantissa, scale) = number_value(bytes(file, *value));
                Value::Number { mantissa, scale }
            },
        },
        _ => unreachable!(),
    }
}

fn source_of(file: &[u8], t: Token) -> Source {
    match t.kind {
        Kind::Text => Source::File(t.start),
        _ if bytes(file, t) == b"ACTIVE" => Source::Active,
        _ => Source::Name(word(t)),
    }
}

fn body_of(file: &[u8], t: &[Token]) -> Body {
    let start = || start_of(file, &t[3..t.len() - 1]);
    match bytes(file, t[0]) {
        b"JOB" => Body::Job { name: word(t[1]), response: t[3].start },
        b"UPLOAD" => Body::Upload { file: t[1].start, source: source_of(file, t[2]), start: start() },
        b"DOWNLOAD" => Body::Download { file: t[1].start, source: source_of(file, t[2]), start: start() },
        b"GETINFO" => Body::Getinfo { file: t[1].start },
        _ if bytes(file, t[1]) == b"REPORT" => Body::AbortReport { name: word(t[2]) },
        _ => Body::AbortEvent { name: word(t[2]) },
    }
}

/// "Each statement is read on its own from the place where it begins."
pub fn read_statement(file: &[u8], missing: Missing, from: usize) -> Result<Statement, Refusal> {
    if file.len() > 65_535 {
        return plain(1);
    }
    if from > file.len() {
        return plain(11);
    }
    let tokens = statement_tokens(file, from, all_forms(missing))?;
    Ok(Statement { offset: tokens[0].start, next: tokens[tokens.len() - 1].end, body: body_of(file, &tokens) })
}

/// The content's length of the string that begins at the quote; none where no whole string begins there.
pub fn text_at(file: &[u8], quote: usize) -> Option<usize> {
    text_length(file.get(quote..)?)
}
