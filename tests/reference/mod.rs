//! Document 01, with P1 to P4, P6 and P7 of 02, once more, in plain Rust: written from the documents' sentences, and from nothing that is proved.
//! It is meant to be read beside them, not to be fast.

pub mod calendar;
pub mod job;
pub mod name;
pub mod record;
pub mod report;
pub mod start;
pub mod table;
pub mod token;

/// A refusal: its number, and its place (0 where 01 gives none).
#[derive(Clone, Copy, Debug, PartialEq, Eq)]
pub struct Refusal {
    pub number: u32,
    pub place: usize,
}

/// A refusal that has no place.
pub fn plain<T>(number: u32) -> Result<T, Refusal> {
    Err(Refusal { number, place: 0 })
}

/// A refusal at a place of a file.
pub fn at<T>(number: u32, place: usize) -> Result<T, Refusal> {
    Err(Refusal { number, place })
}
