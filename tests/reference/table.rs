//! The session table. The calls work on plain structs; `Table::of_bytes` reads those from lent bytes in the layout that the header
//! documents, and each call puts into them the numbers that it changes.

use super::calendar::{is_real_date, is_real_time};
use super::record::{is_outcome, record_bytes, Outcome, Record, COMMANDS, OLD_COMMANDS};
use super::{plain, Refusal};

pub const SESSIONS: usize = 32;
pub const TABLE_BYTES: usize = table_bytes(COMMANDS);

/// The size before P6: "Tables in the old size are refused as unsound and must be made anew."
pub const OLD_TABLE_BYTES: usize = table_bytes(OLD_COMMANDS);

/// The size of a table for that many commands a session.
pub const fn table_bytes(commands: usize) -> usize {
    16 * rows_before(commands, SESSIONS)
}

/// The longest reply: "ERROR 50, plus the digits of n", for each command; a table keeps no texts.
pub const REPLY_BYTES: usize = {
    let (mut bytes, mut n) = (0, 1);
    while n <= COMMANDS {
        bytes += 50 + 1 + n.ilog10() as usize;
        n += 1;
    }
    bytes
};

#[derive(Clone, Copy, Debug, PartialEq, Eq)]
pub struct Answer {
    pub outcome: Outcome,
    pub date: u32,
    pub time: u32,
}

#[derive(Clone, Debug, PartialEq, Eq)]
pub struct Session {
    pub program: u32,
    pub count: u32,
    pub ticket: u32,
    pub answers: Vec<Answer>,
}

impl Session {
    pub fn is_closed(&self) -> bool {
        self.answers.len() == self.count as usize
    }
}

#[derive(Clone, Debug, PartialEq, Eq)]
pub struct Table {
    pub max: usize,
    pub last: u32,
    /// The number last taken up: the next one comes first in the turn.
    pub mark: usize,
    /// The session whose lowest unanswered command is in hand.
    pub hand: Option<usize>,
    pub sessions: Vec<Option<Session>>,
}

fn is_answer(a: &Answer) -> bool {
    is_outcome(a.outcome) && is_real_date(a.date) && is_real_time(a.time)
}

// ---- the bytes

/// Row 0 is the table's own; then each session has two rows for its head and one for the answer to each command.
const fn rows_before(commands: usize, session: usize) -> usize {
    1 + session * (2 + commands)
}

/// The first row of the head, or the row of an answer.
pub fn row_of(session: usize, command: usize) -> usize {
    row_within(COMMANDS, session, command)
}

/// The same in a table for another number of commands a session.
pub fn row_within(commands: usize, session: usize, command: usize) -> usize {
    rows_before(commands, session) + if command == 0 { 0 } else { 1 + command }
}

/// The columns of a head; the ticket begins its second row.
pub const TAKEN: usize = 0;
pub const PROGRAM: usize = 1;
pub const COUNT: usize = 2;
pub const ANSWERED: usize = 3;
pub const TICKET: usize = 4;

pub fn number(bytes: &[u8], row: usize, column: usize) -> u32 {
    let at = 16 * row + 4 * column;
    u32::from_le_bytes(bytes[at..at + 4].try_into().unwrap())
}

pub fn put_number(bytes: &mut [u8], row: usize, column: usize, value: u32) {
    let at = 16 * row + 4 * column;
    bytes[at..at + 4].copy_from_slice(&value.to_le_bytes());
}

fn put_row(bytes: &mut [u8], row: usize, values: [u32; 4]) {
    for (column, value) in values.into_iter().enumerate() {
        put_number(bytes, row, column, value);
    }
}

fn answer_of(bytes: &[u8], row: usize) -> Answer {
    let outcome = match number(bytes, row, 0) {
        0 => Outcome::Processed,
        kind => Outcome::Error { class: kind - 1, code: number(bytes, row, 1) },
    };
    Answer { outcome, date: number(bytes, row, 2), time: number(bytes, row, 3) }
}

/// None where the slot is open; an error where a session stands there that no sound table has.
fn session_of(commands: usize, bytes: &[u8], s: usize) -> Result<Option<Session>, ()> {
    let head = row_within(commands, s, 0);
    let [taken, program, count, answered, ticket] = [TAKEN, PROGRAM, COUNT, ANSWERED, TICKET].map(|column| number(bytes, head, column));
    if taken == 0 {
        return Ok(None);
    }
    if !(1..=8).contains(&program) || !(1..=commands).contains(&(count as usize)) || ticket == 0 || answered > count {
        return Err(());
    }
    let answers: Vec<Answer> = (1..=answered as usize).map(|c| answer_of(bytes, row_within(commands, s, c))).collect();
    if answers.iter().all(is_answer) { Ok(Some(Session { program, count, ticket, answers })) } else { Err(()) }
}

impl Table {
    /// "A table is sound when": none where the bytes are not.
    pub fn of_bytes(bytes: &[u8]) -> Option<Table> {
        Table::of_bytes_within(COMMANDS, bytes)
    }

    /// The same for another number of commands a session.
    pub fn of_bytes_within(commands: usize, bytes: &[u8]) -> Option<Table> {
        if bytes.len() != table_bytes(commands) {
            return None;
        }
        let [max, last, mark, hand] = [0, 1, 2, 3].map(|column| number(bytes, 0, column));
        if !(1..=32).contains(&max) || mark >= max {
            return None;
        }
        let max = max as usize;
        let sessions: Result<Vec<_>, ()> = (0..SESSIONS).map(|s| session_of(commands, bytes, s)).collect();
        let sessions = sessions.ok()?;
        if sessions[max..].iter().any(Option::is_some) {
            return None;
        }
        let mut tickets: Vec<u32> = sessions.iter().flatten().map(|s| s.ticket).collect();
        let taken = tickets.len();
        tickets.sort();
        tickets.dedup();
        if tickets.len() < taken || tickets.last().is_some_and(|t| *t > last) {
            return None;
        }
        let hand = if hand == 0 { None } else { Some(hand as usize - 1) };
        if let Some(s) = hand {
            if sessions.get(s)?.as_ref()?.is_closed() {
                return None;
            }
        }
        Some(Table { max, last, mark: mark as usize, hand, sessions })
    }

    /// "beginning after the number last taken up and going round, the first session with an unanswered command"
    fn turn(&self) -> Option<usize> {
        (1..=self.max).map(|step| (self.mark + step) % self.max).find(|s| self.sessions[*s].as_ref().is_some_and(|x| !x.is_closed()))
    }
}

// ---- the calls, on lent bytes

pub fn make(bytes: &mut [u8], max: u32) -> Result<(), Refusal> {
    if !(1..=32).contains(&max) {
        return plain(11);
    }
    if bytes.len() != TABLE_BYTES {
        return plain(13);
    }
    bytes.fill(0);
    put_row(bytes, 0, [max, 0, max - 1, 0]);
    Ok(())
}

fn sound(bytes: &[u8]) -> Result<Table, Refusal> {
    Table::of_bytes(bytes).map_or(plain(13), Ok)
}

pub fn place(bytes: &mut [u8], program: u32, count: u32) -> Result<(u32, u32), Refusal> {
    let table = sound(bytes)?;
    if !(1..=8).contains(&program) || !(1..=COMMANDS).contains(&(count as usize)) {
        return plain(11);
    }
    let Some(s) = (0..table.max).find(|s| table.sessions[*s].is_none()) else { return plain(9) };
    let Some(ticket) = table.last.checked_add(1) else { return plain(12) };
    put_row(bytes, row_of(s, 0), [1, program, count, 0]);
    put_number(bytes, row_of(s, 0), TICKET, ticket);
    put_number(bytes, 0, 1, ticket);
    Ok((s as u32, ticket))
}

/// Number, ticket and command.
pub fn take_up(bytes: &mut [u8]) -> Result<(u32, u32, u32), Refusal> {
    let table = sound(bytes)?;
    let Some(s) = table.hand.or(table.turn()) else { return plain(14) };
    if table.hand.is_none() {
        put_number(bytes, 0, 2, s as u32);
        put_number(bytes, 0, 3, s as u32 + 1);
    }
    let session = table.sessions[s].as_ref().unwrap();
    Ok((s as u32, session.ticket, session.answers.len() as u32 + 1))
}

pub fn answer(bytes: &mut [u8], ticket: u32, command: u32, a: Answer) -> Result<(), Refusal> {
    let table = sound(bytes)?;
    let in_hand = table.hand.map(|s| (s, table.sessions[s].as_ref().unwrap()));
    let Some((s, _)) = in_hand.filter(|(_, x)| x.ticket == ticket && x.answers.len() as u64 + 1 == command as u64) else {
        return plain(10);
    };
    if !is_real_date(a.date) || !is_real_time(a.time) {
        return plain(5);
    }
    if !is_outcome(a.outcome) {
        return plain(7);
    }
    let (kind, code) = match a.outcome {
        Outcome::Processed => (0, 0),
        Outcome::Error { class, code } => (class + 1, code),
    };
    put_row(bytes, row_of(s, command as usize), [kind, code, a.date, a.time]);
    put_number(bytes, row_of(s, 0), ANSWERED, command);
    put_number(bytes, 0, 3, 0);
    Ok(())
}

/// The reply, where `room` is enough for it.
pub fn collect(bytes: &mut [u8], program: u32, ticket: u32, room: usize) -> Result<Vec<u8>, Refusal> {
    let table = sound(bytes)?;
    if !(1..=8).contains(&program) {
        return plain(11);
    }
    let theirs = |s: &usize| table.sessions[*s].as_ref().is_some_and(|x| x.program == program && x.ticket == ticket && x.is_closed());
    let Some(s) = (0..table.max).find(theirs) else { return plain(10) };
    let mut reply = Vec::new();
    for (i, a) in table.sessions[s].as_ref().unwrap().answers.iter().enumerate() {
        let number = i as u32 + 1;
        reply.extend(record_bytes(&Record { number, outcome: a.outcome, text: Vec::new(), date: a.date, time: a.time }));
    }
    if reply.len() > room {
        return plain(8);
    }
    put_number(bytes, row_of(s, 0), TAKEN, 0);
    Ok(reply)
}
