//! Report files: any reports and any cells; every truncation and every change of a byte of some small ones; from text to cells and back, and
//! from rows to text and back, whichever delimiter is chosen.

use crate::calls::{given, written, ROOM_BEFORE};
use crate::generate as make;
use crate::library::{Library, Message};
use crate::random::Random;
use crate::reference::report::{read_report, write_report, Report, COLUMNS, DELIMITERS};

/// The places and lengths of the cells, as they are lent.
fn numbers_of(report: &Report) -> Vec<usize> {
    report.cells.iter().flat_map(|cell| [cell.start, cell.length]).collect()
}

fn number_bytes(numbers: &[usize]) -> Vec<u8> {
    numbers.iter().flat_map(|n| n.to_le_bytes()).collect()
}

/// Asked with that many numbers lent for the cells, and with the parts that these are: one number over is left alone in both.
pub fn expect_report_read(l: &mut Library, file: &[u8], delimiter: u8, lent: usize) {
    let answer = read_report(file, delimiter, lent);
    let mut numbers = vec![usize::from_le_bytes([ROOM_BEFORE; 8]); lent];
    if let Ok(report) = &answer {
        let cells = numbers_of(report);
        numbers[..cells.len()].copy_from_slice(&cells);
    }
    let answer = given(&answer, |report| [report.columns as u64, report.lines as u64]).bytes(&number_bytes(&numbers));
    l.expect(Message::call(b'P').lent(file).numbers(&[delimiter as u64, lent as u64]), answer.twice());
}

/// Asked with the numbers, and with the parts that these are: one number over is no part, and so is left out.
pub fn expect_report_written(l: &mut Library, source: &[u8], numbers: &[usize], columns: usize, delimiter: u8, room: usize) {
    let request = Message::call(b'Q')
        .lent(source)
        .lent(&number_bytes(numbers))
        .numbers(&[columns as u64, delimiter as u64, room as u64]);
    let parts = &numbers[..numbers.len() / 2 * 2];
    let [asked, by_parts] = [numbers, parts].map(|n| written(&write_report(source, n, columns, delimiter, room), room));
    l.expect(request, asked.bytes(&by_parts.0));
}

// ---- every change of small reports

/// Bytes that begin, end or part something, and others beside them.
const BYTES: [u8; 24] = *b",;|\t\"\r\n -.:_/09azAZ\x00\x1f\x7f\xfe\xff";

/// Reports with each kind of field at each edge of a line. No string holds a tab, so that a comma stands there for it.
fn samples(delimiter: u8) -> Vec<Vec<u8>> {
    let inside = if delimiter == b'\t' { b',' } else { delimiter };
    let texts = ["n\r\n", "a,B_1\r\n", "x\r\n\"\"\r\n-7\r\n\"~\"\r\n", "TIMES,b,c\r\n-0,\"~\",007\r\n\"~~\",2.50,\"q~\"\r\n1,\" ~\",\"\"\r\n"];
    let put = |b| match b {
        b',' => delimiter,
        b'~' => inside,
        other => other,
    };
    texts.iter().map(|text| text.bytes().map(put).collect()).collect()
}

fn every_reading(l: &mut Library, file: &[u8], delimiter: u8) {
    let enough = file.len() + 2;
    for n in 0..file.len() {
        expect_report_read(l, &file[..n], delimiter, enough);
        for b in BYTES {
            let changed = [&file[..n], &[b], &file[n + 1..]].concat();
            expect_report_read(l, &changed, delimiter, enough);
            let longer = [&file[..n], &[b], &file[n..]].concat();
            expect_report_read(l, &longer, delimiter, enough);
        }
        let shorter = [&file[..n], &file[n + 1..]].concat();
        expect_report_read(l, &shorter, delimiter, enough);
    }
    for b in BYTES {
        expect_report_read(l, &[file, &[b]].concat(), delimiter, enough);
    }
}

fn every_writing(l: &mut Library, file: &[u8], numbers: &[usize], columns: usize, delimiter: u8) {
    for room in 0..=file.len() + 2 {
        expect_report_written(l, file, numbers, columns, delimiter, room);
    }
    for n in 0..=numbers.len() {
        expect_report_written(l, file, &numbers[..n], columns, delimiter, file.len());
    }
    for any in (0..=COLUMNS + 6).chain([1 << 32, 1 << 63, usize::MAX]) {
        expect_report_written(l, file, numbers, any, delimiter, file.len());
    }
    for i in 0..numbers.len() {
        let mut changed = numbers.to_vec();
        for n in (0..=file.len() + 1).chain([1 << 63, usize::MAX - numbers[i ^ 1], usize::MAX - 1, usize::MAX]) {
            changed[i] = n;
            expect_report_written(l, file, &changed, columns, delimiter, 2 * file.len());
        }
    }
}

pub fn every_change(l: &mut Library) {
    for (i, file) in samples(b';').iter().enumerate() {
        for delimiter in DELIMITERS {
            let file = &samples(delimiter)[i];
            let report = read_report(file, delimiter, usize::MAX).expect("a sample is a report");
            let numbers = numbers_of(&report);
            for lent in 0..=numbers.len() + 3 {
                expect_report_read(l, file, delimiter, lent);
            }
            every_reading(l, file, delimiter);
            every_writing(l, file, &numbers, report.columns, delimiter);
        }
        let numbers = numbers_of(&read_report(file, b';', usize::MAX).unwrap());
        for delimiter in 0..=255 {
            expect_report_read(l, file, delimiter, numbers.len());
            expect_report_written(l, file, &numbers, 1, delimiter, file.len());
        }
    }
    for b in 0..=255 {
        for field in [vec![b], vec![b'a', b], vec![b'1', b], vec![b'"', b, b'"'], vec![b'1', b'.', b], vec![b'-', b]] {
            let name = [&field[..], b"\r\n"].concat();
            expect_report_read(l, &name, b',', 2);
            expect_report_read(l, &[b"n\r\n", &name[..]].concat(), b',', 4);
            expect_report_written(l, &field, &[0, field.len()], 1, b',', 5);
            expect_report_written(l, &[b"n", &field[..]].concat(), &[0, 1, 1, field.len()], 1, b',', 8);
        }
    }
}

// ---- any reports and any cells

fn any_delimiter(r: &mut Random, mostly: u8) -> u8 {
    let any = r.below(256) as u8;
    match r.below(20) {
        0 => r.pick(&DELIMITERS),
        1 => r.pick(&[0, b' ', b':', b'"', b'\r', b'\n', b'.', b'a', b'-', 255, any]),
        _ => mostly,
    }
}

fn any_reading(r: &mut Random, l: &mut Library) {
    let delimiter = r.pick(&DELIMITERS);
    let file = make::report_file(r, delimiter);
    let delimiter = any_delimiter(r, delimiter);
    let needed = read_report(&file, delimiter, usize::MAX).map_or(20, |report| 2 * report.cells.len());
    let lent = r.pick(&[0, needed - 2, needed - 1, needed, needed, needed, needed + 1, needed + 6]);
    expect_report_read(l, &file, delimiter, lent);
}

fn any_writing(r: &mut Random, l: &mut Library) {
    let mut rows = make::rows(r);
    if r.once_in(5) {
        make::damage_rows(r, &mut rows);
    }
    let mut columns = rows[0].len();
    let (mut source, mut numbers) = make::scattered(r, &rows);
    for _ in 0..r.pick(&[0, 0, 0, 1, 1, 2]) {
        make::damage_cells(r, &mut numbers, source.len());
    }
    if r.once_in(20) {
        source.pop();
    }
    if r.once_in(8) {
        columns = r.pick(&[0, 1, 2, COLUMNS - 1, COLUMNS, COLUMNS + 1, COLUMNS + 2, columns + 1, 2 * columns, usize::MAX]);
    }
    let mostly = r.pick(&DELIMITERS);
    let delimiter = any_delimiter(r, mostly);
    let length = write_report(&source, &numbers, columns, delimiter, usize::MAX).map_or(40, |text| text.len());
    let room = r.pick(&[0, length - 1, length, length, length + 1, length + 30]);
    expect_report_written(l, &source, &numbers, columns, delimiter, room);
}

/// From rows to text and back, then from this text to its cells and back: with one delimiter, and with any other.
fn there_and_back(r: &mut Random, l: &mut Library) {
    let rows = make::rows(r);
    let columns = rows[0].len();
    let (source, scattered) = make::scattered(r, &rows);
    let [one, other] = [r.pick(&DELIMITERS), r.pick(&DELIMITERS)];
    let text = make::report_text(&rows, one);
    assert_eq!(write_report(&source, &scattered, columns, one, text.len()).as_ref(), Ok(&text));
    expect_report_written(l, &source, &scattered, columns, one, text.len());
    let report = read_report(&text, one, scattered.len()).expect("what is written is a report");
    assert!(report.columns == columns && report.lines + 1 == rows.len());
    assert!(report.cells.iter().map(|cell| &text[cell.start..cell.start + cell.length]).eq(rows.iter().flatten()));
    expect_report_read(l, &text, one, scattered.len());
    let numbers = numbers_of(&report);
    for delimiter in [one, other] {
        let expected = Ok(make::report_text(&rows, delimiter));
        assert_eq!(write_report(&text, &numbers, columns, delimiter, text.len()), expected);
        expect_report_written(l, &text, &numbers, columns, delimiter, text.len());
    }
}

pub fn round(r: &mut Random, l: &mut Library) {
    for _ in 0..20 {
        any_reading(r, l);
        any_writing(r, l);
    }
    there_and_back(r, l);
}
