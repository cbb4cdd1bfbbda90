//! How far a rule has come.

use std::fmt;

/// How far a rule has come. As text it is the printer's word.
#[derive(Clone, Copy, Debug, PartialEq, Eq, Hash)]
pub enum Status {
    /// The rule isn't finished, or was finished by an earlier event.
    Waiting,
    /// This event finished the rule, as it was meant to.
    Success,
    /// This event finished the rule, and it failed.
    Failure,
}

impl Status {
    /// The status that this byte stands for in an answer record, if any.
    pub fn from_byte(byte: u8) -> Option<Status> {
        match byte {
            0 => Some(Status::Waiting),
            1 => Some(Status::Success),
            2 => Some(Status::Failure),
            _ => None,
        }
    }
}

impl fmt::Display for Status {
    fn fmt(&self, formatter: &mut fmt::Formatter) -> fmt::Result {
        formatter.pad(match self {
            Status::Waiting => "waiting",
            Status::Success => "success",
            Status::Failure => "failure",
        })
    }
}
