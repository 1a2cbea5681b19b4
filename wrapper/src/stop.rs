//! Refused calls.

use crate::header;
use std::fmt;

/// A refused call: the stop's number, from 1 to 19 but never 12, or 255, and its place: the index in a vector or of
/// a record, the line of a recording or a listing, else 0.
#[derive(Clone, Copy, Debug, PartialEq, Eq, Hash)]
pub struct Stop {
    pub number: u8,
    pub place: u64,
}

impl Stop {
    /// The stop in words, as the header tells it.
    pub const fn text(self) -> &'static str {
        header::stop_text(self.number)
    }

    /// What a call returned, taken apart.
    pub(crate) fn check(returned: u64) -> Result<(), Stop> {
        match returned {
            0 => Ok(()),
            _ => Err(Stop {
                number: returned as u8,
                place: returned >> 8,
            }),
        }
    }
}

impl fmt::Display for Stop {
    fn fmt(&self, f: &mut fmt::Formatter) -> fmt::Result {
        write!(f, "stop {} at {}: {}", self.number, self.place, self.text())
    }
}

impl std::error::Error for Stop {}
