//! The refusal numbers. 16 was one, and isn't used again.

use std::fmt;

/// What a call answers: accepted, or the reason why it was refused.
#[derive(Clone, Copy, Debug, PartialEq, Eq, Hash)]
#[repr(u8)]
pub enum Number {
    Accepted = 0,
    EmptyFile = 1,
    CutShort = 2,
    UnknownKind = 3,
    WrongLength = 4,
    NotAnEarlierRecord = 5,
    SameAsEarlierRecord = 6,
    TooManyRecords = 7,
    RuleTooLarge = 8,
    NoRoom = 9,
    NoticesDiffer = 10,
    StatusesDiffer = 11,
    RemainderNotInFile = 12,
    RemaindersNotListed = 13,
    PairNamesNoRecord = 14,
    NoRuleOpen = 15,
    InputTooLong = 17,
}

impl Number {
    pub fn value(self) -> u8 {
        self as u8
    }

    pub fn is_accepted(self) -> bool {
        self == Number::Accepted
    }
}

/// Decimal, as the printer and the answer lines show it.
impl fmt::Display for Number {
    fn fmt(&self, formatter: &mut fmt::Formatter) -> fmt::Result {
        write!(formatter, "{}", self.value())
    }
}
