//! P3, "Decide whether to start": "IMMEDIATE is due. A time is due when the present date and time are at or after the clause's, compared
//! date first; without a date, the date on which the command was taken up is used. A condition compares the parameter's present value with
//! the constant". The decision "follows the moment given": nothing is kept from one to the next.

use std::cmp::Ordering;

use super::calendar::{is_real_date, is_real_time};
use super::job::{text_at, Start, Value};
use super::token::text_length;
use super::{plain, Refusal};

/// A start clause. No decision takes the name of its parameter.
#[derive(Clone, Copy, Debug, PartialEq, Eq)]
pub enum Clause {
    Immediate,
    Time { time: u32, date: Option<u32> },
    /// The operator by its place in `= != > < >= <=`, counted from 1.
    Condition { operator: u32, constant: Value },
    /// A condition whose constant is not permitted, whatever else it has.
    NotPermitted,
}

impl From<Start> for Clause {
    fn from(start: Start) -> Clause {
        match start {
            Start::Immediate => Clause::Immediate,
            Start::Time { time, date } => Clause::Time { time, date },
            Start::Condition { operator, value, .. } => Clause::Condition { operator, constant: value },
        }
    }
}

/// What is compared: a number, or a string by its bytes.
#[derive(Clone, Copy, Debug, PartialEq, Eq)]
pub enum Compared<'a> {
    Number { mantissa: i64, scale: u32 },
    Text(&'a [u8]),
}

/// What is given with a clause.
pub struct Given<'a> {
    /// The bytes that the clause's string stands in.
    pub file: &'a [u8],
    /// The present date and time.
    pub date: u32,
    pub time: u32,
    /// The date on which the command was taken up.
    pub taken_up: u32,
    /// The parameter's present value: none is one that is not permitted.
    pub value: Option<Compared<'a>>,
}

/// "Number: 1 to 16 digits in all, with at most one point that has a digit on each side", so that at most 15 stand after it. "String: byte
/// 34, then 0 to 255 bytes from 32 to 254 other than 34, then byte 34": the bytes are a string's content where quotes make them whole.
fn is_permitted(c: &Compared) -> bool {
    match *c {
        Compared::Number { mantissa, scale } => mantissa.unsigned_abs() < 10u64.pow(16) && scale <= 15,
        Compared::Text(bytes) => text_length(&[b"\"", bytes, b"\""].concat()) == Some(bytes.len()),
    }
}

/// The constant, of a string its content: none where no whole string begins at its place.
fn constant_in(file: &[u8], constant: Value) -> Option<Compared<'_>> {
    match constant {
        Value::Number { mantissa, scale } => Some(Compared::Number { mantissa, scale }),
        Value::Text(quote) => text_at(file, quote).map(|length| Compared::Text(&file[quote + 1..][..length])),
    }
}

/// A number that is permitted, as a count of the 15th digit after the point.
fn exact(mantissa: i64, scale: u32) -> i128 {
    mantissa as i128 * 10i128.pow(15 - scale)
}

/// Whether an operator is content with how the value stands to the constant.
fn fits(operator: u32, order: Ordering) -> bool {
    match operator {
        1 => order.is_eq(),
        2 => order.is_ne(),
        3 => order.is_gt(),
        4 => order.is_lt(),
        5 => order.is_ge(),
        6 => order.is_le(),
        _ => unreachable!(),
    }
}

/// "numbers by exact value, sign and trailing zeros included, so 2.50 equals 2.5; strings by their bytes, with = and != only"
fn condition_is_due(operator: u32, constant: Value, given: &Given) -> Result<bool, Refusal> {
    let constant = constant_in(given.file, constant).filter(is_permitted);
    let (Some(value), Some(constant)) = (given.value.filter(is_permitted), constant) else { return plain(7) };
    match (value, constant, operator) {
        (Compared::Number { mantissa, scale }, Compared::Number { mantissa: m, scale: s }, _) => {
            Ok(fits(operator, exact(mantissa, scale).cmp(&exact(m, s))))
        }
        (Compared::Text(bytes), Compared::Text(content), 1) => Ok(bytes == content),
        (Compared::Text(bytes), Compared::Text(content), 2) => Ok(bytes != content),
        _ => plain(19),
    }
}

/// "5 for an unreal date or time given, the clause's own included, then 7 for a number or string that 01 doesn't permit, then 19 for number
/// against string or an order between strings"
pub fn is_due(clause: Clause, given: &Given) -> Result<bool, Refusal> {
    let own_real = match clause {
        Clause::Time { time, date } => is_real_time(time) && date.map_or(true, is_real_date),
        _ => true,
    };
    if !is_real_date(given.date) || !is_real_time(given.time) || !is_real_date(given.taken_up) || !own_real {
        return plain(5);
    }
    match clause {
        Clause::Immediate => Ok(true),
        Clause::Time { time, date } => Ok((given.date, given.time) >= (date.unwrap_or(given.taken_up), time)),
        Clause::Condition { operator, constant } => condition_is_due(operator, constant, given),
        Clause::NotPermitted => plain(7),
    }
}

/// A clause, and what is given with it, as C hands them over: by the names of the header's parameters.
#[derive(Clone, Debug, Default)]
pub struct Question {
    pub file: Vec<u8>,
    pub start_kind: u32,
    pub start_time: u32,
    pub start_date: u32,
    pub operator_kind: u32,
    pub operand_kind: u32,
    pub operand_quote: usize,
    pub scale: u32,
    pub mantissa: i64,
    pub date: u32,
    pub time: u32,
    pub taken_up: u32,
    pub value_kind: u32,
    pub value_scale: u32,
    pub value_mantissa: i64,
    pub value_text: Vec<u8>,
}

impl Question {
    /// What is none of the header's kinds and operators is a condition with a constant that is not permitted.
    pub fn clause(&self) -> Clause {
        let condition = |constant| Clause::Condition { operator: self.operator_kind, constant };
        match (self.start_kind, self.operator_kind, self.operand_kind) {
            (1, _, _) => Clause::Immediate,
            (2, _, _) => Clause::Time { time: self.start_time, date: Some(self.start_date).filter(|date| *date != 0) },
            (3, 1..=6, 1) => condition(Value::Number { mantissa: self.mantissa, scale: self.scale }),
            (3, 1..=6, 2) => condition(Value::Text(self.operand_quote)),
            _ => Clause::NotPermitted,
        }
    }

    fn value(&self) -> Option<Compared<'_>> {
        match self.value_kind {
            1 => Some(Compared::Number { mantissa: self.value_mantissa, scale: self.value_scale }),
            2 => Some(Compared::Text(&self.value_text)),
            _ => None,
        }
    }

    pub fn answer(&self) -> Result<bool, Refusal> {
        let given = Given { file: &self.file, date: self.date, time: self.time, taken_up: self.taken_up, value: self.value() };
        is_due(self.clause(), &given)
    }
}
