//! P1, "Report files": "a first line of names, then none or more lines of as many values, separated by the list delimiter, no spaces, and
//! ended by CR LF". A line goes up to the next LF, and its fields are what the delimiters outside quotes part.

use super::job::Span;
use super::token::{next, Kind, Next, RESERVED};
use super::{at, plain, Refusal};

/// "comma, semicolon, vertical bar or tab"
pub const DELIMITERS: [u8; 4] = [b',', b';', b'|', b'\t'];

/// "1 to 64 columns"
pub const COLUMNS: usize = 64;

#[derive(Clone, Debug, PartialEq, Eq)]
pub struct Report {
    pub columns: usize,
    /// How many lines of values: the line of names is not counted.
    pub lines: usize,
    /// The names and then the values, in the order of the file.
    pub cells: Vec<Span>,
}

/// Whether the bytes are one token of the kind, with nothing beside it.
fn is_one(field: &[u8], kind: Kind) -> bool {
    matches!(next(field, 0), Next::Token(t) if (t.kind, t.start, t.end) == (kind, 0, field.len()))
}

/// "A name is a word that isn't reserved."
fn is_name(field: &[u8]) -> bool {
    is_one(field, Kind::Word) && !RESERVED.contains(&field)
}

/// "A value is a number or a string as in 01"
fn is_value(field: &[u8]) -> bool {
    is_one(field, Kind::Number) || is_one(field, Kind::Text)
}

/// The lengths of a line's fields: a delimiter parts two where the quotes before it are even in number.
fn field_lengths(line: &[u8], delimiter: u8) -> Vec<usize> {
    let mut quotes = 0;
    let fields = line.split(|b| {
        quotes += usize::from(*b == 34);
        *b == delimiter && quotes % 2 == 0
    });
    fields.map(<[u8]>::len).collect()
}

/// The cells of the line that begins at `start`, and the place after it: where CR LF ends it and each of its fields fits.
fn line_at(file: &[u8], start: usize, delimiter: u8, fits: fn(&[u8]) -> bool) -> Option<(Vec<Span>, usize)> {
    let feed = start + file[start..].iter().position(|b| *b == b'\n')?;
    let line = file[start..feed].strip_suffix(b"\r")?;
    let mut cells = Vec::new();
    let mut place = start;
    for length in field_lengths(line, delimiter) {
        if !fits(&file[place..place + length]) {
            return None;
        }
        cells.push(Span { start: place, length });
        place += length + 1;
    }
    Some((cells, feed + 1))
}

/// The report, where `numbers` are enough for a place and a length of each cell.
/// "11 for delimiter [..]; then 7, reading with the start of the first line that doesn't fit (65 names too); then 8"
pub fn read_report(file: &[u8], delimiter: u8, numbers: usize) -> Result<Report, Refusal> {
    if !DELIMITERS.contains(&delimiter) {
        return plain(11);
    }
    let names = line_at(file, 0, delimiter, is_name).filter(|(names, _)| names.len() <= COLUMNS);
    let Some((mut cells, mut place)) = names else { return at(7, 0) };
    let (columns, mut lines) = (cells.len(), 0);
    while place < file.len() {
        let values = line_at(file, place, delimiter, is_value).filter(|(values, _)| values.len() == columns);
        let Some((values, after)) = values else { return at(7, place) };
        cells.extend(values);
        lines += 1;
        place = after;
    }
    if numbers < 2 * cells.len() {
        return plain(8);
    }
    Ok(Report { columns, lines, cells })
}

/// The part of the source with a place and a length.
fn part<'a>(source: &'a [u8], numbers: &[usize]) -> Option<&'a [u8]> {
    let &[place, length] = numbers else { return None };
    source.get(place..place.checked_add(length)?)
}

/// Whether the fields are a line of names and then whole lines of values.
fn is_report(fields: &[&[u8]], columns: usize) -> bool {
    let mut lines = fields.chunks(columns);
    let names = lines.next().unwrap_or(&[]);
    fields.len() % columns == 0 && !names.is_empty() && names.iter().all(|f| is_name(f)) && lines.flatten().all(|f| is_value(f))
}

/// The report of the cells, each given by two numbers as a part of the source.
/// "11 for delimiter or, writing, column count; then 7 [..]; then 8"
pub fn write_report(source: &[u8], numbers: &[usize], columns: usize, delimiter: u8, room: usize) -> Result<Vec<u8>, Refusal> {
    if !DELIMITERS.contains(&delimiter) || !(1..=COLUMNS).contains(&columns) {
        return plain(11);
    }
    let fields: Option<Vec<&[u8]>> = numbers.chunks(2).map(|two| part(source, two)).collect();
    let Some(fields) = fields.filter(|f| is_report(f, columns)) else { return plain(7) };
    let text: Vec<u8> = fields.chunks(columns).flat_map(|line| [&line.join(&delimiter), &b"\r\n"[..]].concat()).collect();
    if text.len() > room {
        return plain(8);
    }
    Ok(text)
}
