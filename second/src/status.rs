//! The completion status.

/// Declared lowest first, so that the derived order is the order of the statuses.
#[derive(Clone, Copy, Debug, PartialEq, Eq, PartialOrd, Ord, Hash)]
pub enum Status {
    Failure,
    Waiting,
    Success,
}

impl Status {
    pub const ALL: [Status; 3] = [Status::Failure, Status::Waiting, Status::Success];

    pub fn opposite(self) -> Status {
        match self {
            Status::Failure => Status::Success,
            Status::Waiting => Status::Waiting,
            Status::Success => Status::Failure,
        }
    }

    /// The status byte of an answer record. It doesn't follow the order of the statuses.
    pub fn byte(self) -> u8 {
        match self {
            Status::Waiting => 0,
            Status::Success => 1,
            Status::Failure => 2,
        }
    }

    /// The printer's word.
    pub fn word(self) -> &'static str {
        match self {
            Status::Waiting => "waiting",
            Status::Success => "success",
            Status::Failure => "failure",
        }
    }
}
