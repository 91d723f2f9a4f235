//! Whether to start: the clauses of statements, each at moments around its own, later and earlier in any order, and with values near its
//! constant; then any numbers at all.

use crate::calls::{given, statement_numbers};
use crate::generate as make;
use crate::library::{Library, Message};
use crate::random::Random;
use crate::reference::job::{read_statement, text_at, Body, Missing, Statement};
use crate::reference::start::{Clause, Question};
use crate::reference::Refusal;

/// How many clauses were due, and how many were not.
#[derive(Default)]
pub struct Decided {
    pub due: u64,
    pub not_due: u64,
}

/// Asked by its numbers, and by the header's structures that hold them; gives what the reference answers.
pub fn expect_due(l: &mut Library, q: &Question) -> Result<bool, Refusal> {
    let clause = [q.start_kind, q.start_time, q.start_date, q.operator_kind, q.operand_kind].map(u64::from);
    let moment = [q.date, q.time, q.taken_up].map(u64::from);
    let request = Message::call(b'B')
        .lent(&q.file)
        .lent(&q.value_text)
        .numbers(&clause)
        .numbers(&[q.operand_quote as u64, q.scale as u64, q.mantissa as u64])
        .numbers(&moment)
        .numbers(&[q.value_kind as u64, q.value_scale as u64, q.value_mantissa as u64]);
    let answer = q.answer();
    l.expect(request, given(&answer, |due| [*due as u64]).twice());
    answer
}

/// The clause of a statement of the file, without a moment and a value.
pub fn clause_of(file: &[u8], statement: &Statement) -> Question {
    let members = statement_numbers(statement);
    Question {
        file: file.to_vec(),
        start_kind: members[11] as u32,
        start_time: members[12] as u32,
        start_date: members[13] as u32,
        operator_kind: members[16] as u32,
        operand_kind: members[17] as u32,
        operand_quote: members[18] as usize,
        scale: members[19] as u32,
        mantissa: members[20] as i64,
        ..Question::default()
    }
}

/// A time or a condition is asked about more often than what is always due, or never decided.
fn how_often(clause: Clause) -> usize {
    match clause {
        Clause::Time { .. } => 4,
        Clause::Condition { .. } => 6,
        Clause::Immediate | Clause::NotPermitted => 1,
    }
}

/// The present value is near the constant, and mostly of its kind. It has a number and a text, of which one at most is looked at.
fn with_value(r: &mut Random, q: Question) -> Question {
    let any = r.pick(&[0, 1, 2, 3, u32::MAX]);
    let value_kind = r.pick(&[q.operand_kind, q.operand_kind, q.operand_kind, q.operand_kind, 1, 2, any]);
    let (value_mantissa, value_scale) = make::near_number(r, q.mantissa, q.scale);
    let content = text_at(&q.file, q.operand_quote).map_or(&b""[..], |n| &q.file[q.operand_quote + 1..][..n]);
    let value_text = make::near_text(r, content);
    Question { value_kind, value_scale, value_mantissa, value_text, ..q }
}

/// The present moment is near the clause's. A command whose clause has a date may have been taken up on that day, before it or after it.
fn with_moment(r: &mut Random, q: Question) -> Question {
    let day = if q.start_date == 0 { make::date(r) } else { q.start_date };
    let taken_up = if q.start_date == 0 { day } else { make::near_date(r, day) };
    let (date, time) = make::near_moment(r, day, q.start_time);
    Question { date, time, taken_up, ..q }
}

/// The clause of a statement; one that has none is asked about too.
fn read_from_a_file(r: &mut Random) -> Vec<Question> {
    let file = make::whole_statement(r);
    let Ok(statement) = read_statement(&file, Missing::Refused, 0) else { return Vec::new() };
    let clause = match statement.body {
        Body::Upload { start, .. } | Body::Download { start, .. } => start.into(),
        _ => Clause::NotPermitted,
    };
    let q = clause_of(&file, &statement);
    assert_eq!(q.clause(), clause);
    (0..how_often(clause))
        .map(|_| {
            let at = with_moment(r, q.clone());
            with_value(r, at)
        })
        .collect()
}

fn any_numbers(r: &mut Random) -> Question {
    let mut file = [b"\"", &make::any_text(r)[..], b"\" \"abc\""].concat();
    if r.once_in(4) {
        make::damage_bytes(r, &mut file);
    }
    let (mantissa, scale) = make::any_number(r);
    let q = Question {
        start_kind: r.pick(&[0, 1, 2, 2, 3, 3, 3, 3, 3, 3, 3, 3, 4, u32::MAX]),
        start_time: make::time(r),
        start_date: if r.once_in(3) { 0 } else { make::date(r) },
        operator_kind: r.pick(&[0, 1, 1, 2, 2, 3, 4, 5, 6, 7, u32::MAX]),
        operand_kind: r.pick(&[0, 1, 1, 1, 2, 2, 2, 3, u32::MAX]),
        operand_quote: make::quote(r, &file),
        scale,
        mantissa,
        date: make::date(r),
        time: make::time(r),
        taken_up: make::date(r),
        file,
        ..Question::default()
    };
    with_value(r, q)
}

pub fn round(r: &mut Random, l: &mut Library, decided: &mut Decided) {
    let mut questions = Vec::new();
    for _ in 0..16 {
        questions.extend(read_from_a_file(r));
        questions.push(any_numbers(r));
    }
    for q in &questions {
        match expect_due(l, q) {
            Ok(true) => decided.due += 1,
            Ok(false) => decided.not_due += 1,
            Err(_) => {}
        }
    }
}
