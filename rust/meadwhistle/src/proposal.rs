//! Proposals that two rules behave alike.

use std::error::Error;
use std::fmt;

use crate::ffi;
use crate::refusal::Refusal;

/// Judges the proposal that the first pair's two records behave alike. Where it is accepted, they give equal notices and statuses
/// on every feed, and so do any two larger rules that hold one in place of the other.
///
/// # Errors
///
/// The first fault: of the expression file, then of the pair file, then of the pairs in file order.
///
/// ```
/// use meadwhistle::{judge, Refusal, Shown};
///
/// // Records 0 to 2: event a; repeat 0; 0 then 1. The pair is 1 and 2.
/// let expressions = b"\x05\0\x02\0a\x06\0\x06\0\0\0\x08\0\x05\0\0\0\x01\0";
/// let pairs = b"\x08\0\x10\0\x01\0\x02\0";
/// assert!(judge(expressions, pairs).is_ok());
///
/// // Records 0 to 2: event a; notify 0, recipient 0; notify 0, recipient 1.
/// let expressions = b"\x05\0\x02\0a\x08\0\x07\0\0\0\x01\0\x08\0\x07\0\0\0\x02\0";
/// let rejection = judge(expressions, pairs).unwrap_err();
/// assert_eq!(rejection.refusal(), Refusal::NoticesDiffer);
/// assert_eq!(rejection.shown(), Shown::Pairs(pairs));
/// ```
pub fn judge<'a>(expressions: &'a [u8], pairs: &'a [u8]) -> Result<(), Rejection<'a>> {
    match Refusal::from_number(ffi::judge(expressions, pairs)) {
        None => Ok(()),
        Some(refusal) => Err(Rejection {
            refusal,
            expressions,
            pairs,
        }),
    }
}

/// Why a proposal isn't accepted, and where. As text it is the text of its [`Refusal`], into which `?` also turns it.
#[derive(Clone, Copy)]
pub struct Rejection<'a> {
    refusal: Refusal,
    expressions: &'a [u8],
    pairs: &'a [u8],
}

/// The faulty record of a proposal and what follows it, to the end of the file that holds it.
#[derive(Clone, Copy, Debug, PartialEq, Eq, Hash)]
pub enum Shown<'a> {
    /// The record is in the expression file.
    Expressions(&'a [u8]),
    /// The record is in the pair file.
    Pairs(&'a [u8]),
}

impl<'a> Rejection<'a> {
    /// Why the proposal isn't accepted.
    pub fn refusal(&self) -> Refusal {
        self.refusal
    }

    /// The faulty record and what follows it; for an empty file, its empty part. It is looked for at this call, which takes as long
    /// as judging did.
    pub fn shown(&self) -> Shown<'a> {
        let part = ffi::shown(self.expressions, self.pairs);
        // The engine gives no place past a file's end.
        let tail = |file: &'a [u8]| file.get(part.place..).unwrap_or_default();
        match part.file {
            0 => Shown::Expressions(tail(self.expressions)),
            _ => Shown::Pairs(tail(self.pairs)),
        }
    }
}

impl<'a> Shown<'a> {
    /// The bytes, from the faulty record's first.
    pub fn bytes(self) -> &'a [u8] {
        match self {
            Shown::Expressions(bytes) | Shown::Pairs(bytes) => bytes,
        }
    }
}

impl From<Rejection<'_>> for Refusal {
    fn from(rejection: Rejection) -> Refusal {
        rejection.refusal
    }
}

impl fmt::Display for Rejection<'_> {
    fn fmt(&self, formatter: &mut fmt::Formatter) -> fmt::Result {
        self.refusal.fmt(formatter)
    }
}

/// The refusal alone: the files may be long.
impl fmt::Debug for Rejection<'_> {
    fn fmt(&self, formatter: &mut fmt::Formatter) -> fmt::Result {
        formatter
            .debug_struct("Rejection")
            .field("refusal", &self.refusal)
            .finish_non_exhaustive()
    }
}

impl Error for Rejection<'_> {}
