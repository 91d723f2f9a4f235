//! Sequences of calls on a session table: mostly what gateways and programs do, with wrong tickets, wrong programs, replays, small rooms
//! and damaged tables between, some of them of the size that they had before P6.

use std::ops::Range;

use crate::calls::{given, outcome_given, written};
use crate::generate as make;
use crate::library::{returned, Library, Message};
use crate::random::Random;
use crate::reference::record::{Outcome, COMMANDS};
use crate::reference::table::{self, Answer, Session, Table, OLD_TABLE_BYTES, REPLY_BYTES, TABLE_BYTES};
use crate::reference::Refusal;

/// The bytes lent to the library, as the reference has them. Each call gives what the reference answers.
pub struct Lent<'a> {
    library: &'a mut Library,
    pub bytes: Vec<u8>,
    /// Tickets that some placing gave, collected or not.
    tickets: Vec<u32>,
}

const ROW: usize = 16;
const BLOCK: usize = 256 * ROW;

/// The parts of so many bytes, within a range, that differ from what they were.
fn changed(was: &[u8], now: &[u8], within: Range<usize>, bytes: usize) -> Vec<Range<usize>> {
    let parts = within.clone().step_by(bytes).map(|at| at..within.end.min(at + bytes));
    parts.filter(|part| was[part.clone()] != now[part.clone()]).collect()
}

/// The rows in which the bytes differ from what they were, as serve.c tells them. Most calls change few, so that blocks of many are compared
/// first.
fn changes(was: &[u8], now: &[u8]) -> Message {
    let blocks = changed(was, now, 0..was.len(), BLOCK);
    let rows = blocks.into_iter().flat_map(|block| changed(was, now, block, ROW));
    rows.fold(Message::default(), |m, row| m.number(row.start as u64).bytes(&now[row])).number(u64::MAX)
}

impl<'a> Lent<'a> {
    pub fn new(library: &'a mut Library, bytes: Vec<u8>) -> Lent<'a> {
        let mut lent = Lent { library, bytes: Vec::new(), tickets: Vec::new() };
        lent.lend(bytes);
        lent
    }

    pub fn lend(&mut self, bytes: Vec<u8>) {
        self.bytes = bytes;
        self.library.lend(&self.bytes);
    }

    /// Has the call made by both, on the same bytes.
    fn expect<T>(&mut self, request: Message, call: impl FnOnce(&mut [u8]) -> T, told: impl FnOnce(&T) -> Message) -> T {
        let was = self.bytes.clone();
        let answer = call(&mut self.bytes);
        let change = changes(&was, &self.bytes);
        self.library.expect(request, told(&answer).bytes(&change.0));
        answer
    }

    pub fn make(&mut self, max: u32) -> Result<(), Refusal> {
        let request = Message::call(b'm').number(max as u64);
        self.expect(request, |b| table::make(b, max), |answer| Message::default().number(returned(answer)))
    }

    pub fn is_sound(&mut self) -> bool {
        self.expect(Message::call(b'i'), |b| Table::of_bytes(b).is_some(), |sound| Message::default().number(*sound as u64))
    }

    /// Number and ticket.
    pub fn place(&mut self, program: u32, count: u32) -> Result<(u32, u32), Refusal> {
        let request = Message::call(b'p').numbers(&[program as u64, count as u64]);
        let numbers = |(number, ticket): &(u32, u32)| [*number as u64, *ticket as u64];
        let answer = self.expect(request, |b| table::place(b, program, count), |answer| given(answer, numbers));
        self.tickets.extend(answer.map(|(_, ticket)| ticket));
        answer
    }

    /// Number, ticket and command.
    pub fn take_up(&mut self) -> Result<(u32, u32, u32), Refusal> {
        let numbers = |(number, ticket, command): &(u32, u32, u32)| [*number as u64, *ticket as u64, *command as u64];
        self.expect(Message::call(b'u'), table::take_up, |answer| given(answer, numbers))
    }

    pub fn answer(&mut self, ticket: u32, command: u32, a: Answer, outcome: [u64; 3]) -> Result<(), Refusal> {
        let request = Message::call(b'a')
            .numbers(&[ticket as u64, command as u64])
            .numbers(&outcome)
            .numbers(&[a.date as u64, a.time as u64]);
        self.expect(request, |b| table::answer(b, ticket, command, a), |answer| Message::default().number(returned(answer)))
    }

    /// The reply.
    pub fn collect(&mut self, program: u32, ticket: u32, room: usize) -> Result<Vec<u8>, Refusal> {
        let request = Message::call(b'c').numbers(&[program as u64, ticket as u64, room as u64]);
        self.expect(request, |b| table::collect(b, program, ticket, room), |answer| written(answer, room))
    }
}

fn any_ticket(r: &mut Random, lent: &Lent) -> u32 {
    if lent.tickets.is_empty() || r.once_in(5) { r.pick(&[0, 1, 2, u32::MAX]) } else { r.pick(&lent.tickets) }
}

/// The command in hand, where there is one.
fn in_hand(bytes: &[u8]) -> Option<(u32, u32)> {
    let table = Table::of_bytes(bytes)?;
    let session = table.sessions[table.hand?].as_ref()?;
    Some((session.ticket, session.answers.len() as u32 + 1))
}

/// The sessions whose replies wait to be collected.
fn closed(bytes: &[u8]) -> Vec<Session> {
    let sessions = Table::of_bytes(bytes).map_or(Vec::new(), |t| t.sessions);
    sessions.into_iter().flatten().filter(Session::is_closed).collect()
}

fn answer_call(r: &mut Random, lent: &mut Lent) {
    let (mut ticket, mut command) = in_hand(&lent.bytes).unwrap_or((any_ticket(r, lent), r.from(1, 3) as u32));
    if r.once_in(8) {
        ticket = any_ticket(r, lent);
    }
    if r.once_in(10) {
        command = r.pick(&[0, command.wrapping_add(1), command.wrapping_sub(1), COMMANDS as u32 + 1, u32::MAX]);
    }
    let (outcome, numbers) = outcome_given(r);
    let _ = lent.answer(ticket, command, Answer { outcome, date: make::date(r), time: make::time(r) }, numbers);
}

fn collect_call(r: &mut Random, lent: &mut Lent) {
    let waiting = closed(&lent.bytes);
    let (mut program, mut ticket, mut length) = (r.from(1, 8) as u32, any_ticket(r, lent), 100);
    if !waiting.is_empty() && !r.once_in(5) {
        let s = &waiting[r.below(waiting.len())];
        (program, ticket) = (s.program, s.ticket);
        length = table::collect(&mut lent.bytes.clone(), program, ticket, usize::MAX).unwrap().len();
    }
    if r.once_in(10) {
        program = r.pick(&[0, 1, 2, 8, 9, u32::MAX]);
    }
    let room = r.pick(&[0, length - 1, length, length, length + 7, REPLY_BYTES]);
    let _ = lent.collect(program, ticket, room);
}

fn any_call(r: &mut Random, lent: &mut Lent) {
    match r.below(20) {
        0..=4 => {
            let program = if r.once_in(15) { r.pick(&[0, 9, u32::MAX]) } else { r.from(1, 8) as u32 };
            let count = match r.below(15) {
                0 => r.pick(&[0, COMMANDS as u32 + 1, 256, u32::MAX]),
                1 => make::command_count(r, COMMANDS) as u32,
                _ => r.from(1, 3) as u32,
            };
            let _ = lent.place(program, count);
        }
        5..=9 => {
            let _ = lent.take_up();
        }
        10..=15 => answer_call(r, lent),
        _ => collect_call(r, lent),
    }
}

fn stored_answer(r: &mut Random) -> [u32; 4] {
    let (kind, code) = match make::outcome(r) {
        Outcome::Error { class, code } if class <= 99 && code <= 99_999_999 => (class + 1, code),
        _ => (0, 0),
    };
    [kind, code, 20240101 + r.below(28) as u32, r.below(24) as u32 * 10000]
}

/// A sound table for that many commands a session, which need not come from any calls: many sessions, partly answered.
pub fn full_table(r: &mut Random, commands: usize, max: usize) -> Vec<u8> {
    let mut bytes: Vec<u8> = (0..table::table_bytes(commands)).map(|_| if r.once_in(3) { r.below(256) as u8 } else { 0 }).collect();
    let first = r.pick(&[1, 1000, u32::MAX - 64]);
    let mut open = Vec::new();
    for s in 0..table::SESSIONS {
        let stands = s < max && !r.once_in(8);
        let any = make::command_count(r, commands);
        let count = r.pick(&[1, 2, commands, any]);
        let some = r.below(count + 1);
        let answered = r.pick(&[0, count - 1, count, count, some]);
        let taken = if stands { r.pick(&[1, 1, 2, u32::MAX]) } else { 0 };
        let head = [taken, r.from(1, 8) as u32, count as u32, answered as u32, first + ((s * 7) % 32) as u32];
        for (column, value) in head.into_iter().enumerate() {
            table::put_number(&mut bytes, table::row_within(commands, s, 0), column, value);
        }
        for c in 1..=answered {
            for (column, value) in stored_answer(r).into_iter().enumerate() {
                table::put_number(&mut bytes, table::row_within(commands, s, c), column, value);
            }
        }
        if stands && answered < count {
            open.push(s as u32);
        }
    }
    let hand = if open.is_empty() || r.once_in(2) { 0 } else { r.pick(&open) + 1 };
    let own = [max as u32, first.saturating_add(r.pick(&[31, 64])), r.below(max) as u32, hand];
    for (column, value) in own.into_iter().enumerate() {
        table::put_number(&mut bytes, 0, column, value);
    }
    bytes
}

fn stood_tickets(bytes: &[u8]) -> Vec<u32> {
    Table::of_bytes(bytes).map_or(Vec::new(), |t| t.sessions.iter().flatten().map(|s| s.ticket).collect())
}

/// Every call on bytes that may have become unsound; then the bytes as they were.
fn damaged_calls(r: &mut Random, lent: &mut Lent) {
    let was = lent.bytes.clone();
    let mut bytes = was.clone();
    for _ in 0..r.pick(&[1, 1, 1, 2]) {
        make::damage_table(r, &mut bytes);
    }
    if r.once_in(20) {
        bytes.truncate(TABLE_BYTES - r.from(1, 16));
    }
    if r.once_in(20) {
        bytes.extend([0; 4]);
    }
    if r.once_in(40) {
        bytes.truncate(OLD_TABLE_BYTES);
    }
    lent.lend(bytes);
    lent.is_sound();
    for _ in 0..5 {
        any_call(r, lent);
    }
    lent.lend(was);
}

fn sequence(r: &mut Random, library: &mut Library, calls: usize) {
    let before = if r.once_in(2) { 0 } else { r.below(256) as u8 };
    let size = if r.once_in(8) { r.pick(&[TABLE_BYTES - 1, TABLE_BYTES, OLD_TABLE_BYTES]) } else { TABLE_BYTES };
    let mut lent = Lent::new(library, vec![before; size]);
    let max = if r.once_in(8) { make::max(r) } else { r.from(1, 5) as u32 };
    let _ = lent.make(max);
    if r.once_in(3) {
        let bytes = full_table(r, COMMANDS, (max as usize).clamp(1, 32));
        lent.tickets = stood_tickets(&bytes);
        lent.lend(bytes);
    }
    for _ in 0..calls {
        if r.once_in(25) {
            damaged_calls(r, &mut lent);
        }
        any_call(r, &mut lent);
    }
}

pub fn round(r: &mut Random, library: &mut Library) {
    for _ in 0..3 {
        sequence(r, library, 80);
    }
}
