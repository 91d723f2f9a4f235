//! "A file name is the four letters SESS, four digits, then `.REQ` or `.RSP`, 12 bytes in capitals, number below MaxSessions."

use super::{plain, Refusal};

#[derive(Clone, Copy, Debug, PartialEq, Eq)]
pub enum Kind {
    Request,
    Response,
}

fn name(number: u32, kind: Kind) -> Vec<u8> {
    format!("SESS{:04}.{}", number, if kind == Kind::Request { "REQ" } else { "RSP" }).into_bytes()
}

fn is_max(max: u32) -> bool {
    (1..=32).contains(&max)
}

/// The name is looked for among all that there are.
pub fn read_name(bytes: &[u8], max: u32) -> Result<(u32, Kind), Refusal> {
    if is_max(max) {
        for number in 0..max {
            for kind in [Kind::Request, Kind::Response] {
                if name(number, kind) == bytes {
                    return Ok((number, kind));
                }
            }
        }
    }
    plain(11)
}

pub fn write_name(number: u32, kind: Kind, max: u32, room: usize) -> Result<Vec<u8>, Refusal> {
    if !is_max(max) || number >= max {
        return plain(11);
    }
    if room < 12 {
        return plain(8);
    }
    Ok(name(number, kind))
}
