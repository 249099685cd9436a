//! What a call gives back: a count, or a refusal's number with its place.

/// A refusal of document 01 or 02: its number, and the record, entry or byte it points at.
#[derive(Clone, Copy, Debug, PartialEq, Eq)]
pub struct Refusal {
    pub number: u8,
    pub place: usize,
}

/// A refusal with its place.
pub fn refusal(number: u8, place: usize) -> Refusal {
    Refusal { number, place }
}

/// The reply of every call but call 7.
#[derive(Clone, Copy, Debug, PartialEq, Eq)]
pub enum Reply {
    Count(usize),
    Refused { number: u8, place: usize },
}

impl From<Result<usize, Refusal>> for Reply {
    fn from(outcome: Result<usize, Refusal>) -> Reply {
        match outcome {
            Ok(count) => Reply::Count(count),
            Err(Refusal { number, place }) => Reply::Refused { number, place },
        }
    }
}

impl std::fmt::Display for Reply {
    fn fmt(&self, out: &mut std::fmt::Formatter) -> std::fmt::Result {
        match self {
            Reply::Count(count) => write!(out, "A {count}"),
            Reply::Refused { number, place } => write!(out, "R {number} {place}"),
        }
    }
}
