//! "Bytes and tokens."

#[derive(Clone, Copy, Debug, PartialEq, Eq)]
pub enum Kind {
    /// A word, reserved or not.
    Word,
    /// `TIME>=`, in one.
    TimeFrom,
    Number,
    Time,
    Text,
    Operator,
    Semicolon,
}

/// A token is the bytes from `start` up to `end`.
#[derive(Clone, Copy, Debug, PartialEq, Eq)]
pub struct Token {
    pub kind: Kind,
    pub start: usize,
    pub end: usize,
}

#[derive(Clone, Copy, Debug, PartialEq, Eq)]
pub enum Next {
    Token(Token),
    /// The next bytes are no token: the number that they are refused with, and the place of the first of them.
    NoToken(u32, usize),
    End,
}

/// "Reserved: JOB RESPONSE UPLOAD DOWNLOAD GETINFO ABORT REPORT EVENT START STOP ACTIVE TIME IMMEDIATE NEVER."
pub const RESERVED: [&[u8]; 14] = [
    b"JOB", b"RESPONSE", b"UPLOAD", b"DOWNLOAD", b"GETINFO", b"ABORT", b"REPORT", b"EVENT", b"START", b"STOP", b"ACTIVE", b"TIME",
    b"IMMEDIATE", b"NEVER",
];

/// The operators, a longer one before its own beginning.
pub const OPERATORS: [&[u8]; 6] = [b"!=", b">=", b"<=", b"=", b">", b"<"];

/// "byte 34, then 0 to 255 bytes from 32 to 254 other than 34, then byte 34": the content's length. Else P2's number, by what the bytes
/// after the opening quote meet first: 15 the end of the file, 16 a forbidden byte or a 256th content byte.
fn text_after_quote(rest: &[u8]) -> Result<usize, u32> {
    for (content, byte) in rest.iter().enumerate() {
        match byte {
            34 => return Ok(content),
            32..=254 if content < 255 => {}
            _ => return Err(16),
        }
    }
    Err(15)
}

/// The content's length, where a whole string begins there.
pub fn text_length(bytes: &[u8]) -> Option<usize> {
    text_after_quote(bytes.strip_prefix(&[34])?).ok()
}

/// "Number: 1 to 16 digits in all, with at most one point that has a digit on each side", after its sign.
fn is_number(run: &[u8]) -> bool {
    let unsigned = run.strip_prefix(b"-").unwrap_or(run);
    let parts: Vec<&[u8]> = unsigned.split(|b| *b == b'.').collect();
    let digits: usize = parts.iter().map(|p| p.len()).sum();
    parts.len() <= 2 && digits <= 16 && parts.iter().all(|p| !p.is_empty() && p.iter().all(u8::is_ascii_digit))
}

/// "Time: dd:dd:dd without sign."
fn is_time(run: &[u8]) -> bool {
    run.len() == 8 && run.iter().enumerate().all(|(i, b)| if i == 2 || i == 5 { *b == b':' } else { b.is_ascii_digit() })
}

/// How many bytes from the start on are blanks and comments.
fn blank_length(bytes: &[u8]) -> usize {
    let mut at = 0;
    loop {
        match &bytes[at..] {
            [b' ' | b'\t' | b'\r' | b'\n', ..] => at += 1,
            [b'/', b'/', ..] => at += bytes[at..].iter().take_while(|b| **b != b'\r' && **b != b'\n').count(),
            _ => return at,
        }
    }
}

fn run_length(bytes: &[u8], member: impl Fn(u8) -> bool) -> usize {
    bytes.iter().take_while(|b| member(**b)).count()
}

/// The kind and the length of the token that the bytes begin with. Else P2's number: 15 or 16 for a string, 17 for "an overlong word or
/// misshapen numeric run", 3 for "a byte that starts no token, a lone !, / or - too".
fn first_token(bytes: &[u8]) -> Result<(Kind, usize), u32> {
    let first = bytes[0];
    if first.is_ascii_alphabetic() {
        let n = run_length(bytes, |b| b.is_ascii_alphanumeric() || b == b'_');
        if bytes.starts_with(b"TIME>=") && n == 4 {
            return Ok((Kind::TimeFrom, 6));
        }
        return if n <= 255 { Ok((Kind::Word, n)) } else { Err(17) };
    }
    let sign = usize::from(first == b'-');
    if bytes.get(sign).is_some_and(u8::is_ascii_digit) {
        let n = sign + run_length(&bytes[sign..], |b| b.is_ascii_alphanumeric() || b == b'_' || b == b'.' || b == b':');
        return match &bytes[..n] {
            run if is_number(run) => Ok((Kind::Number, n)),
            run if is_time(run) => Ok((Kind::Time, n)),
            _ => Err(17),
        };
    }
    if first == 34 {
        return text_after_quote(&bytes[1..]).map(|n| (Kind::Text, n + 2));
    }
    if first == b';' {
        return Ok((Kind::Semicolon, 1));
    }
    OPERATORS.iter().find(|o| bytes.starts_with(o)).map(|o| (Kind::Operator, o.len())).ok_or(3)
}

/// The first token at `at` or after it.
pub fn next(file: &[u8], at: usize) -> Next {
    let start = at + blank_length(&file[at..]);
    if start == file.len() {
        return Next::End;
    }
    match first_token(&file[start..]) {
        Ok((kind, length)) => Next::Token(Token { kind, start, end: start + length }),
        Err(number) => Next::NoToken(number, start),
    }
}

/// "A number is read as a signed whole number of at most 16 digits with the count of digits after the point."
pub fn number_value(run: &[u8]) -> (i64, u32) {
    let digits: String = run.iter().filter(|b| b.is_ascii_digit()).map(|b| *b as char).collect();
    let size: i64 = digits.parse().unwrap();
    let scale = run.iter().position(|b| *b == b'.').map_or(0, |p| run.len() - p - 1);
    (if run[0] == b'-' { -size } else { size }, scale as u32)
}

/// A time's hhmmss, real or not.
pub fn time_value(run: &[u8]) -> u32 {
    let digits: String = run.iter().filter(|b| **b != b':').map(|b| *b as char).collect();
    digits.parse().unwrap()
}

/// "A date is eight bare digits."
pub fn date_value(run: &[u8]) -> Option<u32> {
    (run.len() == 8 && run.iter().all(u8::is_ascii_digit)).then(|| std::str::from_utf8(run).unwrap().parse().unwrap())
}
