//! Document 01's checked examples, its traps, and the readings that docs/DECISIONS.md names, P1's, P3's, P4's, P6's and P7's among them: with
//! the numbers written out, so that the reference is held against the documents too. Then the library is asked the same.

use crate::calls::{expect_calendar, expect_job, expect_name_read, expect_record_read, expect_record_written, expect_statement, outcome_numbers};
use crate::library::{returned, Library};
use crate::random::Random;
use crate::reference::calendar::{is_real_date, is_real_time};
use crate::reference::job::{read_job, read_statement, Body, Missing, Start, Value, OLD_STATEMENTS, SETTINGS, STATEMENTS};
use crate::reference::name::read_name;
use crate::reference::plain;
use crate::reference::record::{read_record, read_record_within, write_record, Outcome, Record, COMMANDS, OLD_COMMANDS};
use crate::reference::report::{read_report, write_report, COLUMNS};
use crate::reference::start::Question;
use crate::reference::table::{put_number, Answer, Table, OLD_TABLE_BYTES, REPLY_BYTES, SESSIONS, TABLE_BYTES};
use crate::reference::token::number_value;
use crate::reports::{expect_report_read, expect_report_written};
use crate::starts::{clause_of, expect_due};
use crate::tables::{full_table, Lent};

fn job_with(l: &mut Library, file: &[u8], missing: Missing, number: u64, place: u64) {
    assert_eq!(returned(&read_job(file, missing, STATEMENTS)), number + 256 * place, "{} {missing:?}", String::from_utf8_lossy(file));
    expect_job(l, file, STATEMENTS);
}

/// A file with what is returned under either setting: 0, or number and place.
fn job(l: &mut Library, file: &[u8], number: u64, place: u64) {
    for missing in SETTINGS {
        job_with(l, file, missing, number, place);
    }
}

fn start(number: &str) -> Vec<u8> {
    format!("UPLOAD \"f\" ACTIVE START p = {number};").into_bytes()
}

fn number(l: &mut Library, digits: &str, value: Option<(i64, u32)>) {
    let file = start(digits);
    let read = read_statement(&file, Missing::Refused, 0).ok().map(|s| match s.body {
        Body::Upload { start: Start::Condition { value: Value::Number { mantissa, scale }, .. }, .. } => (mantissa, scale),
        other => panic!("{other:?}"),
    });
    assert_eq!(read, value, "{digits}");
    expect_statement(l, &file, 0);
}

fn statements(n: usize) -> Vec<u8> {
    [b"JOB a RESPONSE \"x\";".to_vec(), b"GETINFO \"y\";".repeat(n - 1)].concat()
}

fn job_examples(l: &mut Library) -> usize {
    let head = b"JOB a RESPONSE \"x\"; ";
    let full = statements(STATEMENTS);
    // Where so many statements end.
    let end = |n: usize| 19 + 12 * (n as u64 - 1);
    let cases: Vec<(Vec<u8>, u64, u64)> = vec![
        (b"".to_vec(), 18, 0),
        (b"JOB".to_vec(), 18, 3),
        (b"JOB t1 RESPONSE \"t1.log\"".to_vec(), 18, 24),
        (b"JOB t1 RESPONSE \"t1.log\";".to_vec(), 0, 0),
        (b"JOB START RESPONSE \"x\";".to_vec(), 4, 4),
        (b"JOB a RESPONSE \"x".to_vec(), 15, 15),
        (b"JOB a RESPONSE\"x\";".to_vec(), 0, 0),
        (b"JOB a RESPONSE \"//x\\\";".to_vec(), 0, 0),
        ([&head[..], b"UPLOAD \"f\" ACTIVE START TIME >= 08:00:00;"].concat(), 4, 44),
        ([&head[..], b"UPLOAD \"f\" ACTIVE START TIME>= 08:00:00;"].concat(), 0, 0),
        ([&head[..], b"UPLOAD \"f\" ACTIVE START TIME>= 24:00:00;"].concat(), 5, 51),
        ([&head[..], b"UPLOAD \"f\" ACTIVE START TIME>= 08:00:00 20240431;"].concat(), 5, 60),
        ([&head[..], b"UPLOAD \"f\" ACTIVE START TIME>= 08:00:00 20240430;"].concat(), 0, 0),
        ([&head[..], b"UPLOAD \"f\" ACTIVE START TIME>= 08:00:00 24:00:00;"].concat(), 4, 60),
        ([&head[..], b"UPLOAD \"f\" ACTIVE START TIME>= 20240431;"].concat(), 4, 51),
        ([&head[..], b"UPLOAD \"f\" ACTIVE START TIME>= 08:00:00 2024043;"].concat(), 4, 60),
        ([&head[..], b"UPLOAD \"f\" ACTIVE START p = 20240431;"].concat(), 0, 0),
        ([&head[..], b"JOB a RESPONSE \"x\";"].concat(), 4, 20),
        ([&b"JOB a RESPONSE \""[..], &[b'q'; 255], b"\";"].concat(), 0, 0),
        ([&b"JOB a RESPONSE \""[..], &[b'q'; 256], b"\";"].concat(), 16, 15),
        ([&b"JOB a RESPONSE \""[..], &[b'q'; 255]].concat(), 15, 15),
        ([&b"JOB a RESPONSE \""[..], &[b'q'; 256]].concat(), 16, 15),
        ([&b"JOB a RESPONSE \""[..], &[b'q'; 255], b"\n\";"].concat(), 16, 15),
        (b"JOB a RESPONSE \"x\ty\";".to_vec(), 16, 15),
        (b"JOB a RESPONSE \"x\xff".to_vec(), 16, 15),
        (b"JOB a RESPONSE \"".to_vec(), 15, 15),
        (b"JOB ! RESPONSE \"x\";".to_vec(), 3, 4),
        (b"JOB / RESPONSE \"x\";".to_vec(), 3, 4),
        (b"JOB - RESPONSE \"x\";".to_vec(), 3, 4),
        (b"JOB @ RESPONSE \"x\";".to_vec(), 3, 4),
        (b"JOB 12x RESPONSE \"x\";".to_vec(), 17, 4),
        (b"JOB -1.2.3 RESPONSE \"x\";".to_vec(), 17, 4),
        (b"JOB 12345678901234567 RESPONSE \"x\";".to_vec(), 17, 4),
        ([&b"JOB "[..], &[b'q'; 255], b" RESPONSE \"x\";"].concat(), 0, 0),
        ([&b"JOB "[..], &[b'q'; 256], b" RESPONSE \"x\";"].concat(), 17, 4),
        (statements(OLD_STATEMENTS), 0, 0),
        (statements(OLD_STATEMENTS + 1), 0, 0),
        ([&statements(OLD_STATEMENTS)[..], b"JOB"].concat(), 4, end(OLD_STATEMENTS)),
        (statements(STATEMENTS - 1), 0, 0),
        ([&statements(STATEMENTS - 1)[..], b"JOB"].concat(), 4, end(STATEMENTS - 1)),
        (full.clone(), 0, 0),
        (statements(STATEMENTS + 1), 6, end(STATEMENTS)),
        ([&full[..], b"JOB"].concat(), 6, end(STATEMENTS)),
        ([&full[..], b" !"].concat(), 3, end(STATEMENTS) + 1),
        ([&full[..], b" // end"].concat(), 0, 0),
        (vec![b' '; 65_535], 18, 65_535),
        (vec![b' '; 65_536], 1, 0),
    ];
    for (file, number, place) in &cases {
        job(l, file, *number, *place);
    }
    cases.len()
}

/// P7: what is returned where a missing start clause is refused, and where it reads as START IMMEDIATE.
fn clause_examples(l: &mut Library) -> usize {
    let head = "JOB a RESPONSE \"x\"; ";
    let own = str::to_string;
    let cases: Vec<(String, u64, u64, u64, u64)> = vec![
        (own("UPLOAD \"f\" ACTIVE;"), 4, 37, 0, 0),
        (own("UPLOAD \"f\" \"g\";"), 4, 34, 0, 0),
        (own("UPLOAD \"f\" p;"), 4, 32, 0, 0),
        (own("DOWNLOAD \"f\" ACTIVE;"), 4, 39, 0, 0),
        (own("DOWNLOAD \"f\" \"g\";"), 4, 36, 0, 0),
        (own("DOWNLOAD \"f\" p;"), 4, 34, 0, 0),
        (own("UPLOAD \"f\" ACTIVE // no clause\r\n ;"), 4, 53, 0, 0),
        (own("UPLOAD \"f\" ACTIVE"), 18, 37, 18, 37),
        (own("DOWNLOAD \"f\" p // no clause"), 18, 47, 18, 47),
        (own("UPLOAD \"f\" ACTIVE; GETINFO"), 4, 37, 18, 46),
        (own("UPLOAD \"f\" ACTIVE; JOB"), 4, 37, 4, 39),
        (own("UPLOAD \"f\" ACTIVE; !"), 4, 37, 3, 39),
        (own("UPLOAD \"f\" ACTIVE 1;"), 4, 38, 4, 38),
        (own("UPLOAD \"f\" ACTIVE IMMEDIATE;"), 4, 38, 4, 38),
        (own("UPLOAD \"f\" ACTIVE 24:00:00;"), 4, 38, 4, 38),
        (own("UPLOAD \"f\" ACTIVE START;"), 4, 43, 4, 43),
        (own("UPLOAD \"f\" ACTIVE START IMMEDIATE;"), 0, 0, 0, 0),
        (own("DOWNLOAD \"f\" p START p = 1;"), 0, 0, 0, 0),
        (own("UPLOAD \"f\" p START IMMEDIATE; DOWNLOAD \"f\" p; UPLOAD \"f\" p;"), 4, 64, 0, 0),
        (own("GETINFO \"f\"; ABORT REPORT r; ABORT EVENT e;"), 0, 0, 0, 0),
        ("UPLOAD \"f\" p;".repeat(STATEMENTS - 1), 4, 32, 0, 0),
        ("UPLOAD \"f\" p;".repeat(STATEMENTS), 4, 32, 6, 20 + 13 * (STATEMENTS as u64 - 1)),
    ];
    for (rest, number, place, earlier_number, earlier_place) in &cases {
        let file = own(head) + rest;
        job_with(l, file.as_bytes(), Missing::Refused, *number, *place);
        job_with(l, file.as_bytes(), Missing::Immediate, *earlier_number, *earlier_place);
        for at in 20..file.len() {
            expect_statement(l, file.as_bytes(), at);
        }
    }
    cases.len()
}

fn other_examples(l: &mut Library) -> usize {
    number(l, "-0", Some((0, 0)));
    number(l, "0", Some((0, 0)));
    number(l, "-0.00", Some((0, 2)));
    number(l, "-9999999999999999", Some((-9_999_999_999_999_999, 0)));
    number(l, "0.000000000000001", Some((1, 15)));
    number(l, "12345678901234567", None);
    assert!(!is_real_date(20240431) && is_real_date(20240430) && !is_real_time(240000) && is_real_time(235959));
    let record = |outcome| Record { number: 1, outcome, text: vec![], date: 20240430, time: 235959 };
    for (outcome, numbers, length) in
        [(Outcome::Processed, [0, 0, 0], 43), (Outcome::Error { class: 3, code: 7 }, [1, 3, 7], 51)]
    {
        assert_eq!(write_record(&record(outcome), 60).unwrap().len(), length);
        expect_record_written(l, &record(outcome), numbers, 60);
    }
    for (name, number) in [(b"SESS0032.REQ", 11), (b"SESS0031.REQ", 0)] {
        assert_eq!(returned(&read_name(name, 32)), number);
        expect_name_read(l, name, 32);
    }
    14
}

fn numbered(number: usize, outcome: Outcome, text: &[u8]) -> Record {
    Record { number: number as u32, outcome, text: text.to_vec(), date: 20240430, time: 235959 }
}

/// P6: "n in a record may now have three digits". The field between COMMAND and PROCESSED, and what its record is refused with; what is taken
/// is written from its number too.
fn record_numbers(l: &mut Library) -> usize {
    let mut cases: Vec<(String, u64)> = Vec::new();
    for n in [1, 9, 10, OLD_COMMANDS, OLD_COMMANDS + 1, 99, 100, 101, COMMANDS - 1, COMMANDS] {
        cases.push((n.to_string(), 0));
        cases.push((format!("0{n}"), 7));
        cases.push((format!("{n}0"), if 10 * n <= COMMANDS { 0 } else { 7 }));
    }
    for n in [0, COMMANDS + 1, 255, 256, 257, 999, 1000, u32::MAX as usize, (1 << 32) + 1] {
        cases.push((n.to_string(), 7));
    }
    for digits in ["", "000", "18446744073709551617", "2 0", "2O0", "-1", "+1", "1.0"] {
        cases.push((digits.to_string(), 7));
    }
    for (digits, number) in &cases {
        let bytes = format!("COMMAND {digits} PROCESSED \"\" 20240430 23:59:59;\r\n").into_bytes();
        assert_eq!(returned(&read_record(&bytes)), *number, "{digits}");
        expect_record_read(l, &bytes);
        if let Some(n) = digits.parse().ok().filter(|n: &u32| n.to_string() == *digits) {
            let record = numbered(n as usize, Outcome::Processed, b"");
            assert_eq!(write_record(&record, usize::MAX), if *number == 0 { Ok(bytes) } else { plain(*number as u32) });
            expect_record_written(l, &record, [0, 0, 0], 60);
        }
    }
    cases.len()
}

/// P6: "a full reply of ERROR records with 255-byte texts is 61,492 bytes", and "Older host readers refuse records above 64 with 7 and never
/// misread one": of the bytes that the library writes, an older reader takes those that it took before, as what they are, and no others.
fn every_number(l: &mut Library) -> usize {
    let error = Outcome::Error { class: 99, code: 99_999_999 };
    let mut lengths = [0; 3];
    for n in 1..=COMMANDS {
        let records = [numbered(n, error, &[b't'; 255]), numbered(n, error, b""), numbered(n, Outcome::Processed, b"COMMAND 1 PROCESSED ")];
        for (record, length) in records.iter().zip(&mut lengths) {
            let bytes = write_record(record, usize::MAX).expect("a record of that number");
            let (taken, older) = (read_record(&bytes), read_record_within(OLD_COMMANDS, &bytes));
            assert_eq!(taken.as_ref().map(|(r, _)| r), Ok(record));
            assert_eq!(older, if n <= OLD_COMMANDS { taken } else { plain(7) }, "{n}");
            expect_record_written(l, record, outcome_numbers(record.outcome), bytes.len());
            expect_record_read(l, &bytes);
            *length += bytes.len();
        }
    }
    assert_eq!(lengths[..2], [61_492, REPLY_BYTES]);
    COMMANDS * lengths.len()
}

/// Answers every command of the sessions that stand, and gives how many they were.
fn answer_all(lent: &mut Lent, outcome: Outcome) -> usize {
    let mut answers = 0;
    while let Ok((_, ticket, command)) = lent.take_up() {
        let answer = Answer { outcome, date: 20240430, time: 235959 };
        assert_eq!(lent.answer(ticket, command, answer, outcome_numbers(outcome)), Ok(()));
        answers += 1;
    }
    answers
}

/// P6: "200 commands in a session", and what room its reply can need.
fn long_sessions(l: &mut Library) -> usize {
    let mut lent = Lent::new(l, vec![0; TABLE_BYTES]);
    let outcomes = [(Outcome::Processed, 42), (Outcome::Error { class: 99, code: 99_999_999 }, 50)];
    let counts = [1, OLD_COMMANDS, OLD_COMMANDS + 1, COMMANDS - 1, COMMANDS];
    assert_eq!(REPLY_BYTES, 10_492);
    for count in counts {
        for (outcome, length) in outcomes {
            assert_eq!(lent.make(SESSIONS as u32), Ok(()));
            let (number, ticket) = lent.place(8, count as u32).expect("a session of so many commands");
            assert_eq!((number, answer_all(&mut lent, outcome)), (0, count));
            let needed: usize = (1..=count).map(|n| length + n.to_string().len()).sum();
            assert_eq!(lent.collect(8, ticket, needed - 1), plain(8));
            assert_eq!(lent.collect(8, ticket, needed).map(|reply| reply.len()), Ok(needed));
            assert_eq!(lent.collect(8, ticket, needed), plain(10));
            assert!(needed <= REPLY_BYTES);
        }
    }
    let refused = [0, COMMANDS + 1, 255, 256, 257, 1000, u32::MAX as usize];
    for count in refused {
        assert_eq!(lent.place(8, count as u32), plain(11), "{count}");
    }
    counts.len() * outcomes.len() + refused.len()
}

/// Every call on bytes that are no table refuses them, and leaves them as they are.
fn every_call_is_refused(lent: &mut Lent) {
    let was = lent.bytes.clone();
    for max in [0, SESSIONS as u32 + 1, u32::MAX] {
        assert_eq!(lent.make(max), plain(11));
    }
    for max in 1..=SESSIONS as u32 {
        assert_eq!(lent.make(max), plain(13));
    }
    let answer = Answer { outcome: Outcome::Processed, date: 20240430, time: 235959 };
    assert!(!lent.is_sound());
    assert_eq!(lent.place(1, 1), plain(13));
    assert_eq!(lent.place(0, 0), plain(13));
    assert_eq!(lent.take_up(), plain(13));
    for ticket in [0, 1, 2, u32::MAX] {
        assert_eq!(lent.answer(ticket, 1, answer, [0, 0, 0]), plain(13));
        assert_eq!(lent.collect(1, ticket, REPLY_BYTES), plain(13));
    }
    assert!(lent.bytes == was);
}

/// P6: "Tables in the old size are refused as unsound and must be made anew."
fn old_tables(l: &mut Library) -> usize {
    let mut r = Random::new(1);
    let mut tables: Vec<Vec<u8>> = (1..=SESSIONS).map(|max| full_table(&mut r, OLD_COMMANDS, max)).collect();
    for max in 1..=SESSIONS as u32 {
        let mut fresh = vec![0; OLD_TABLE_BYTES];
        put_number(&mut fresh, 0, 0, max);
        put_number(&mut fresh, 0, 2, max - 1);
        tables.push(fresh);
    }
    assert!(tables.iter().all(|bytes| Table::of_bytes_within(OLD_COMMANDS, bytes).is_some()), "they were sound");
    tables.push(vec![0; OLD_TABLE_BYTES]);
    tables.extend((0..8).map(|_| (0..OLD_TABLE_BYTES).map(|_| r.below(256) as u8).collect()));
    let mut lent = Lent::new(l, Vec::new());
    for bytes in &tables {
        lent.lend(bytes.clone());
        every_call_is_refused(&mut lent);
        // Made anew, where its bytes have become as many as a table has now.
        let mut longer = bytes.clone();
        longer.resize(TABLE_BYTES, 0x5A);
        lent.lend(longer);
        assert_eq!(lent.make(1), Ok(()));
        assert_eq!(lent.place(1, COMMANDS as u32), Ok((0, 1)));
        assert!(lent.is_sound());
    }
    tables.len()
}

/// The 29th of February, in a job file and in a record; then the end of February in every year.
fn februaries(l: &mut Library) -> usize {
    let dates = [(19970229, false), (19000229, false), (20000229, true), (229, true), (20240229, true)];
    for (date, real) in dates {
        assert_eq!(is_real_date(date), real, "{date}");
        let (number, place) = if real { (0, 0) } else { (5, 60) };
        job(l, format!("JOB a RESPONSE \"x\"; UPLOAD \"f\" ACTIVE START TIME>= 08:00:00 {date:08};").as_bytes(), number, place);
        let record = Record { number: 1, outcome: Outcome::Processed, text: vec![], date, time: 235959 };
        assert_eq!(returned(&write_record(&record, 60)), number);
        expect_record_written(l, &record, [0, 0, 0], 60);
    }
    let leap = (0..10_000).filter(|year| is_real_date(year * 10_000 + 229)).count();
    assert_eq!(leap, 25 * 97, "97 of 400 years are leap years");
    for year in 0..10_000 {
        for day in [28, 29, 30] {
            expect_calendar(l, year * 10_000 + 200 + day);
        }
    }
    dates.len()
}

/// A question with its answer: whether the clause is due, or the number of the refusal.
type Decision = (Question, Result<bool, u32>);

/// A clause at noon of the day on which its command was taken up.
fn at_noon(clause: &str) -> Question {
    let file = format!("UPLOAD \"f\" ACTIVE START {clause};").into_bytes();
    let statement = read_statement(&file, Missing::Refused, 0).expect("a clause that is read");
    Question { date: 20261117, time: 120000, taken_up: 20261117, ..clause_of(&file, &statement) }
}

/// The same with a present value, which is spelled as in a job file.
fn with_value(clause: &str, value: &str) -> Question {
    let q = at_noon(clause);
    match value.strip_prefix('"').and_then(|v| v.strip_suffix('"')) {
        Some(content) => Question { value_kind: 2, value_text: content.into(), ..q },
        None => {
            let (value_mantissa, value_scale) = number_value(value.as_bytes());
            Question { value_kind: 1, value_mantissa, value_scale, ..q }
        }
    }
}

fn timed_starts() -> Vec<Decision> {
    // A clause, the day on which its command was taken up, the present date and time, and the answer.
    let cases = [
        ("IMMEDIATE", 20261117, 20261117, 0, Ok(true)),
        ("IMMEDIATE", 20261117, 20261116, 235959, Ok(true)),
        ("TIME>= 08:00:00", 20261117, 20261117, 75959, Ok(false)),
        ("TIME>= 08:00:00", 20261117, 20261117, 80000, Ok(true)),
        ("TIME>= 08:00:00", 20261117, 20261117, 80001, Ok(true)),
        // The clock is set back.
        ("TIME>= 08:00:00", 20261117, 20261117, 75959, Ok(false)),
        ("TIME>= 08:00:00", 20261117, 20261118, 0, Ok(true)),
        ("TIME>= 08:00:00", 20261117, 20261116, 235959, Ok(false)),
        ("TIME>= 08:00:00", 20261118, 20261117, 235959, Ok(false)),
        ("TIME>= 00:00:00", 20261117, 20261117, 0, Ok(true)),
        ("TIME>= 00:00:00", 20261117, 20261116, 235959, Ok(false)),
        ("TIME>= 08:00:00 20261120", 20261117, 20261117, 80000, Ok(false)),
        ("TIME>= 08:00:00 20261120", 20261117, 20261119, 235959, Ok(false)),
        ("TIME>= 08:00:00 20261120", 20261117, 20261120, 75959, Ok(false)),
        ("TIME>= 08:00:00 20261120", 20261117, 20261120, 80000, Ok(true)),
        ("TIME>= 08:00:00 20261120", 20261121, 20261120, 80000, Ok(true)),
        ("TIME>= 08:00:00 20261120", 20261117, 20261121, 0, Ok(true)),
        // Date first, and not time first.
        ("TIME>= 23:59:59 20261231", 20261117, 20270101, 0, Ok(true)),
        ("TIME>= 00:00:00 20270101", 20261117, 20261231, 235959, Ok(false)),
        ("TIME>= 23:59:59 99991231", 20261117, 99991231, 235958, Ok(false)),
        ("TIME>= 23:59:59 99991231", 20261117, 99991231, 235959, Ok(true)),
        ("TIME>= 00:00:00 00000101", 20261117, 101, 0, Ok(true)),
        ("TIME>= 00:00:00 20240229", 20261117, 20240228, 235959, Ok(false)),
        ("TIME>= 00:00:00 20240229", 20261117, 20240229, 0, Ok(true)),
        ("IMMEDIATE", 20000229, 20240229, 0, Ok(true)),
        ("IMMEDIATE", 20000229, 19000229, 0, Err(5)),
        ("IMMEDIATE", 20260229, 20261117, 0, Err(5)),
        ("IMMEDIATE", 20261117, 20260431, 0, Err(5)),
        ("IMMEDIATE", 20261117, 20261117, 240000, Err(5)),
        ("IMMEDIATE", 0, 20261117, 0, Err(5)),
        ("TIME>= 08:00:00", 20260229, 20261117, 80000, Err(5)),
        ("TIME>= 08:00:00", 20261117, 20261117, 240000, Err(5)),
        ("TIME>= 08:00:00", 20261117, 100000101, 80000, Err(5)),
        ("TIME>= 08:00:00 20261120", 20260229, 20261120, 80000, Err(5)),
        ("TIME>= 08:00:00 20261120", 20261117, 20261120, 80060, Err(5)),
    ];
    cases.map(|(clause, taken_up, date, time, answer)| (Question { taken_up, date, time, ..at_noon(clause) }, answer)).into()
}

fn conditional_starts() -> Vec<Decision> {
    // A clause, the present value, and the answer.
    let cases = [
        ("p = 2.50", "2.5", Ok(true)),
        ("p != 2.50", "2.5", Ok(false)),
        ("p = 2.5", "2.50", Ok(true)),
        ("p >= 2.500", "2.5", Ok(true)),
        ("p < 2.51", "2.5", Ok(true)),
        ("p = 25", "2.5", Ok(false)),
        ("p = 0", "-0", Ok(true)),
        ("p = -0.0", "0", Ok(true)),
        ("p < 0", "-0.00", Ok(false)),
        ("p = -1", "1", Ok(false)),
        ("p > -1", "1", Ok(true)),
        ("p > -2", "-1.5", Ok(true)),
        ("p < -1", "-1.5", Ok(true)),
        ("p = 007", "7", Ok(true)),
        ("p > 9.999999999999999", "9999999999999999", Ok(true)),
        ("p < 9999999999999999", "9.999999999999999", Ok(true)),
        ("p < -9.999999999999999", "-9999999999999999", Ok(true)),
        ("p < -9999999999999999", "-9.999999999999999", Ok(false)),
        ("p < 9999999999999999", "-9999999999999999", Ok(true)),
        ("p < 10", "9.999999999999999", Ok(true)),
        ("p >= 10", "9.999999999999999", Ok(false)),
        ("p > 9.999999999999999", "10", Ok(true)),
        ("p > -10", "-9.999999999999999", Ok(true)),
        ("p > 999999999999999.9", "1000000000000000", Ok(true)),
        ("p >= 1000000000000000", "999999999999999.9", Ok(false)),
        ("p < -999999999999999.9", "-1000000000000000", Ok(true)),
        ("p = 0.000000000000000", "0", Ok(true)),
        ("p < 0.000000000000001", "0", Ok(true)),
        ("p > -0.000000000000001", "0", Ok(true)),
        ("p = 1.000000000000000", "1", Ok(true)),
        ("p = 1", "1.000000000000001", Ok(false)),
        ("p > 1", "1.000000000000001", Ok(true)),
        ("p < 0", "-0.000000000000001", Ok(true)),
        ("p = 9999999999999999", "9999999999999998", Ok(false)),
        ("p = \"abc\"", "\"abc\"", Ok(true)),
        ("p != \"abc\"", "\"abc\"", Ok(false)),
        ("p = \"abc\"", "\"abd\"", Ok(false)),
        ("p = \"abc\"", "\"xbc\"", Ok(false)),
        ("p != \"abc\"", "\"abd\"", Ok(true)),
        ("p = \"abc\"", "\"ab\"", Ok(false)),
        ("p = \"ab\"", "\"abc\"", Ok(false)),
        ("p != \"abc\"", "\"ab\"", Ok(true)),
        ("p = \"abc\"", "\"ABC\"", Ok(false)),
        ("p = \"abc\"", "\"abc \"", Ok(false)),
        ("p = \"2.50\"", "\"2.5\"", Ok(false)),
        ("p = \"\"", "\"\"", Ok(true)),
        ("p = \"\"", "\"a\"", Ok(false)),
        ("p != \"a\"", "\"\"", Ok(true)),
        ("p > \"abc\"", "\"abd\"", Err(19)),
        ("p < \"abc\"", "\"abc\"", Err(19)),
        ("p >= \"abc\"", "\"abc\"", Err(19)),
        ("p <= \"abc\"", "\"abc\"", Err(19)),
        ("p = \"1\"", "1", Err(19)),
        ("p != \"1\"", "1", Err(19)),
        ("p < \"1\"", "1", Err(19)),
        ("p = 1", "\"1\"", Err(19)),
        ("p != 1", "\"1\"", Err(19)),
        ("p < 1", "\"1\"", Err(19)),
    ];
    let mut all: Vec<Decision> = cases.map(|(clause, value, answer)| (with_value(clause, value), answer)).into();
    // An operator, and its answers where the value is below the constant, equal to it, and above it.
    for (operator, answers) in [
        ("=", [false, true, false]),
        ("!=", [true, false, true]),
        (">", [false, false, true]),
        ("<", [true, false, false]),
        (">=", [false, true, true]),
        ("<=", [true, true, false]),
    ] {
        for (value, due) in ["-2.51", "-2.50", "-2.49"].into_iter().zip(answers) {
            all.push((with_value(&format!("p {operator} -2.5"), value), Ok(due)));
        }
    }
    all
}

/// Numbers that no statement is read with, values that are not permitted, and what is not looked at; 5 before 7, and 7 before 19.
fn refused_starts() -> Vec<Decision> {
    const BEYOND: i64 = 10_000_000_000_000_000;
    let timed = at_noon("TIME>= 08:00:00");
    let number = with_value("p < 5", "4");
    let text = with_value("p = \"abc\"", "\"abc\"");
    let unlike = with_value("p < \"abc\"", "4");
    let value_text = |bytes: &[u8]| Question { value_text: bytes.to_vec(), ..text.clone() };
    let constant = |bytes: &[u8]| Question { file: [b"\"", bytes, b"\""].concat(), operand_quote: 0, ..text.clone() };
    vec![
        (Question { start_time: 240000, ..timed.clone() }, Err(5)),
        (Question { start_date: 20260229, ..timed.clone() }, Err(5)),
        (Question { start_date: 100000101, ..timed.clone() }, Err(5)),
        (Question { value_kind: 3, value_scale: 16, ..timed.clone() }, Ok(true)),
        (Question { operator_kind: 7, operand_kind: 3, scale: 16, ..timed.clone() }, Ok(true)),
        (Question { start_kind: 1, start_time: 240000, start_date: 20260229, ..timed.clone() }, Ok(true)),
        (Question { start_kind: 1, value_kind: 1, value_mantissa: BEYOND, ..timed.clone() }, Ok(true)),
        (Question { start_kind: 0, ..timed.clone() }, Err(7)),
        (Question { start_kind: 4, ..number.clone() }, Err(7)),
        (Question { start_kind: u32::MAX, start_time: 240000, ..number.clone() }, Err(7)),
        (Question { start_kind: 0, taken_up: 20260229, ..number.clone() }, Err(5)),
        (number.clone(), Ok(true)),
        (Question { start_time: 240000, start_date: 20260229, ..number.clone() }, Ok(true)),
        (Question { operator_kind: 0, ..number.clone() }, Err(7)),
        (Question { operator_kind: 7, ..number.clone() }, Err(7)),
        (Question { operand_kind: 0, ..number.clone() }, Err(7)),
        (Question { operand_kind: 3, ..number.clone() }, Err(7)),
        (Question { value_kind: 0, ..number.clone() }, Err(7)),
        (Question { value_kind: 3, ..number.clone() }, Err(7)),
        (Question { mantissa: BEYOND - 1, scale: 15, ..number.clone() }, Ok(true)),
        (Question { mantissa: BEYOND, ..number.clone() }, Err(7)),
        (Question { mantissa: -BEYOND, ..number.clone() }, Err(7)),
        (Question { mantissa: i64::MAX, ..number.clone() }, Err(7)),
        (Question { mantissa: i64::MIN, ..number.clone() }, Err(7)),
        (Question { scale: 16, ..number.clone() }, Err(7)),
        (Question { scale: u32::MAX, ..number.clone() }, Err(7)),
        (Question { value_mantissa: 1 - BEYOND, ..number.clone() }, Ok(true)),
        (Question { value_mantissa: BEYOND, ..number.clone() }, Err(7)),
        (Question { value_mantissa: -BEYOND, ..number.clone() }, Err(7)),
        (Question { value_mantissa: i64::MIN, ..number.clone() }, Err(7)),
        (Question { value_mantissa: 0, value_scale: 16, ..number.clone() }, Err(7)),
        (Question { value_mantissa: 0, value_scale: u32::MAX, ..number.clone() }, Err(7)),
        (Question { value_text: vec![34; 256], ..number.clone() }, Ok(true)),
        (Question { operand_quote: text.operand_quote + 1, ..text.clone() }, Err(7)),
        (Question { operand_quote: text.operand_quote + 4, ..text.clone() }, Err(7)),
        (Question { operand_quote: 7, ..text.clone() }, Ok(false)),
        (Question { operand_quote: 7, value_text: b"f".to_vec(), ..text.clone() }, Ok(true)),
        (Question { operand_quote: text.file.len(), ..text.clone() }, Err(7)),
        (Question { operand_quote: usize::MAX, ..text.clone() }, Err(7)),
        (Question { file: Vec::new(), operand_quote: 0, ..text.clone() }, Err(7)),
        (Question { mantissa: BEYOND, value_mantissa: BEYOND, value_scale: 16, ..text.clone() }, Ok(true)),
        (constant(b"abc"), Ok(true)),
        (constant(&[b'q'; 255]), Ok(false)),
        (constant(&[b'q'; 256]), Err(7)),
        (constant(b"ab\x1f"), Err(7)),
        (constant(b"ab\xff"), Err(7)),
        (value_text(&[b'q'; 255]), Ok(false)),
        (value_text(&[b'q'; 256]), Err(7)),
        (value_text(b"ab\x1f"), Err(7)),
        (value_text(b"ab "), Ok(false)),
        (value_text(b"ab\""), Err(7)),
        (value_text(b"\"abc\""), Err(7)),
        (value_text(b"ab\xfe"), Ok(false)),
        (value_text(b"ab\xff"), Err(7)),
        (unlike.clone(), Err(19)),
        (Question { value_scale: 16, ..unlike.clone() }, Err(7)),
        (Question { operand_quote: 0, ..unlike.clone() }, Err(7)),
        (Question { time: 240000, ..unlike.clone() }, Err(5)),
        (Question { date: 20261131, value_scale: 16, ..unlike.clone() }, Err(5)),
        (Question { taken_up: 20260229, operator_kind: 0, ..unlike.clone() }, Err(5)),
    ]
}

fn start_examples(l: &mut Library) -> usize {
    let cases = [timed_starts(), conditional_starts(), refused_starts()].concat();
    for (question, answer) in &cases {
        assert_eq!(expect_due(l, question), answer.or_else(plain), "{question:?}");
    }
    cases.len()
}

/// Copies of a field with semicolons between, as a line.
fn line(field: &str, copies: usize) -> String {
    vec![field; copies].join(";") + "\r\n"
}

fn reports_read(l: &mut Library) -> usize {
    let (q255, q256) = ("q".repeat(255), "q".repeat(256));
    let own = str::to_string;
    let ab = |lines: &str| own("a;b\r\n") + lines;
    let long = line("n", 1) + &line("1", 1).repeat(40_000);
    // A file, how many numbers are lent for its cells, and what is returned: 0, or number and place.
    let mut cases: Vec<(String, usize, u64, u64)> = vec![
        (own(""), 12, 7, 0),
        (ab(""), 4, 0, 0),
        (ab(""), 3, 8, 0),
        (ab(""), 0, 8, 0),
        (ab("1;2\r\n"), 8, 0, 0),
        (ab("1;2\r\n"), 7, 8, 0),
        (ab("1;2\r\n3;\"4\"\r\n"), 12, 0, 0),
        (ab("1;2\r\n3;4"), 12, 7, 10),
        (ab("1;2\r\n3;4\r"), 12, 7, 10),
        (ab("1;2\r\n3;4\n"), 12, 7, 10),
        (ab("1;2\r\n3;4\r\n\r\n"), 12, 7, 15),
        (ab("1;2\r\n3\r\n"), 0, 7, 10),
        (ab("1;2;3\r\n3;4\r\n"), 12, 7, 5),
        (ab("1;2;\r\n"), 12, 7, 5),
        (ab(";1;2\r\n"), 12, 7, 5),
        (ab("1;;2\r\n"), 12, 7, 5),
        (ab("1; 2\r\n"), 12, 7, 5),
        (ab("1,2\r\n"), 12, 7, 5),
        (ab("1;b\r\n"), 12, 7, 5),
        (ab("-0;007\r\n2.50;20240431\r\n"), 12, 0, 0),
        (ab("1;08:00:00\r\n"), 12, 7, 5),
        (ab("1;5.\r\n"), 12, 7, 5),
        (ab("1;-\r\n"), 12, 7, 5),
        (ab("9999999999999999;-0.000000000000001\r\n"), 12, 0, 0),
        (ab("1;10000000000000000\r\n"), 12, 7, 5),
        (ab("\";\";\"\"\r\n"), 12, 0, 0),
        (ab("\"1;2\r\n"), 12, 7, 5),
        (ab("1;\"2\"\"3\"\r\n"), 12, 7, 5),
        (ab("1;\"2\"3\r\n"), 12, 7, 5),
        (ab("1;\"2\t3\"\r\n"), 12, 7, 5),
        (ab("1;\"2\r\n3\"\r\n"), 12, 7, 5),
        (ab(&format!("1;\"{q255}\"\r\n")), 12, 0, 0),
        (ab(&format!("1;\"{q256}\"\r\n")), 12, 7, 5),
        (format!("a;{q255}\r\n1;2\r\n"), 12, 0, 0),
        (format!("a;{q256}\r\n1;2\r\n"), 12, 7, 0),
        (own("a;a\r\n"), 12, 0, 0),
        (own("a;TIMES;JOB_1\r\n"), 12, 0, 0),
        (own("a;TIME>=\r\n"), 12, 7, 0),
        (own("a;@b\r\n"), 12, 7, 0),
        (own("a;1\r\n"), 12, 7, 0),
        (own("a;\"b\"\r\n"), 12, 7, 0),
        (own("a;b;\r\n"), 12, 7, 0),
        (own("a;b"), 12, 7, 0),
        (own("a;b\n"), 12, 7, 0),
        (own("a;b\r"), 12, 7, 0),
        (own("\r\n"), 12, 7, 0),
        (own("\r\na;b\r\n"), 12, 7, 0),
        (line("n", COLUMNS) + &line("1", COLUMNS), 4 * COLUMNS, 0, 0),
        (line("n", COLUMNS + 1) + &line("1", COLUMNS + 1), 300, 7, 0),
        (line("n", COLUMNS) + &line("1", COLUMNS + 1), 300, 7, 2 * COLUMNS as u64 + 1),
        (line("n", COLUMNS) + &line("1", COLUMNS - 1), 300, 7, 2 * COLUMNS as u64 + 1),
        (long.clone(), 80_002, 0, 0),
        (long.clone(), 80_001, 8, 0),
        (long + "x\r\n", 0, 7, 120_003),
    ];
    for word in "JOB RESPONSE UPLOAD DOWNLOAD GETINFO ABORT REPORT EVENT START STOP ACTIVE TIME IMMEDIATE NEVER".split(' ') {
        cases.push((format!("a;{word}\r\n"), 12, 7, 0));
        cases.push((format!("a;{}\r\n", word.to_lowercase()), 12, 0, 0));
    }
    for (file, lent, number, place) in &cases {
        assert_eq!(returned(&read_report(file.as_bytes(), b';', *lent)), number + 256 * place, "{file}");
        expect_report_read(l, file.as_bytes(), b';', *lent);
        // The same with every other delimiter, where the file has it not yet and no string gets a tab.
        for delimiter in [b',', b'|', b'\t'] {
            if !file.contains(delimiter as char) && (delimiter != b'\t' || !file.contains("\";\"")) {
                let other: Vec<u8> = file.bytes().map(|b| if b == b';' { delimiter } else { b }).collect();
                assert_eq!(returned(&read_report(&other, delimiter, *lent)), number + 256 * place, "{file}");
                expect_report_read(l, &other, delimiter, *lent);
            }
        }
        assert_eq!(returned(&read_report(file.as_bytes(), b':', *lent)), 11);
        expect_report_read(l, file.as_bytes(), b':', *lent);
    }
    cases.len()
}

fn reports_written(l: &mut Library) -> usize {
    // 0: a, 1: B_1, 4: 2.50, 8: ";", 11: -0, 13: TIME, 17: 08:00:00, and the end at 25.
    let source = b"aB_12.50\";\"-0TIME08:00:00";
    const MOST: usize = usize::MAX;
    let four: &[usize] = &[0, 1, 1, 3, 4, 4, 8, 3];
    // Cells, columns, delimiter, room, and what is returned.
    let cases: Vec<(&[usize], usize, u8, usize, u64)> = vec![
        (four, 2, b';', 17, 0),
        (four, 2, b';', 16, 8),
        (four, 2, b'|', 18, 0),
        (four, 2, b'\t', 18, 0),
        (four, 2, b':', 18, 11),
        (four, 0, b';', 18, 11),
        (four, COLUMNS + 1, b';', 18, 11),
        (four, MOST, b';', 18, 11),
        (four, 1, b';', 0, 7),
        (four, 3, b';', 0, 7),
        (four, 4, b';', 0, 7),
        (&four[..7], 2, b';', 18, 7),
        (&four[..6], 2, b';', 18, 7),
        (&four[..4], 2, b';', 7, 0),
        (&four[..2], 1, b';', 3, 0),
        (&four[..1], 1, b';', 3, 7),
        (&[], 1, b';', 3, 7),
        (&[], 0, b';', 3, 11),
        (&[0, 0], 1, b';', 9, 7),
        (&[0, 2], 1, b';', 9, 0),
        (&[0, 6], 1, b';', 9, 7),
        (&[13, 4], 1, b';', 9, 7),
        (&[14, 3], 1, b';', 9, 0),
        (&[4, 1], 1, b';', 9, 7),
        (&[0, 1, 4, 1], 1, b';', 9, 0),
        (&[0, 1, 4, 2], 1, b';', 9, 7),
        (&[0, 1, 5, 3], 1, b';', 9, 7),
        (&[0, 1, 8, 2], 1, b';', 9, 7),
        (&[0, 1, 11, 2], 1, b';', 9, 0),
        (&[0, 1, 12, 1], 1, b';', 9, 0),
        (&[0, 1, 11, 1], 1, b';', 9, 7),
        (&[0, 1, 17, 8], 1, b';', 20, 7),
        (&[0, 1, 17, 2], 1, b';', 20, 0),
        (&[0, 1, 24, 1], 1, b';', 20, 0),
        (&[0, 1, 24, 2], 1, b';', 20, 7),
        (&[0, 1, 25, 0], 1, b';', 20, 7),
        (&[0, 1, 25, 1], 1, b';', 20, 7),
        (&[0, 1, MOST, 1], 1, b';', 20, 7),
        (&[0, 1, MOST, 6], 1, b';', 20, 7),
        (&[0, 1, 6, MOST], 1, b';', 20, 7),
        (&[0, 1, MOST, MOST], 1, b';', 20, 7),
        (&[MOST, 2], 1, b';', 20, 7),
    ];
    for (cells, columns, delimiter, room, number) in &cases {
        assert_eq!(returned(&write_report(source, cells, *columns, *delimiter, *room)), *number, "{cells:?} {columns} {delimiter} {room}");
        expect_report_written(l, source, cells, *columns, *delimiter, *room);
    }
    assert_eq!(write_report(source, four, 2, b';', 17).as_deref(), Ok(&b"a;B_1\r\n2.50;\";\"\r\n"[..]));
    let (same, length) = ([0, 1].repeat(COLUMNS), 2 * COLUMNS + 1);
    assert_eq!(write_report(source, &same, COLUMNS, b';', length), Ok(line("a", COLUMNS).into_bytes()));
    expect_report_written(l, source, &same, COLUMNS, b';', length);
    cases.len() + 1
}

pub fn all(l: &mut Library) -> usize {
    let jobs = job_examples(l) + clause_examples(l) + other_examples(l) + februaries(l) + start_examples(l);
    let limits = record_numbers(l) + every_number(l) + long_sessions(l) + old_tables(l);
    jobs + limits + reports_read(l) + reports_written(l)
}
