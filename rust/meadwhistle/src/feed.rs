//! A whole feed at once.

use crate::ffi;
use crate::refusal::{accepted, Refusal};
use crate::{Notices, Status};

/// Answers a whole feed: a [`Record`] for each event, written to `answers` from `place` on. Returns how many bytes were written;
/// the others stay as they are. Where the call is refused, no byte changes.
///
/// # Errors
///
/// What is wrong with the rule file, [`Refusal::RuleTooLarge`], or [`Refusal::NoRoom`], in this order.
///
/// ```
/// use meadwhistle::{run, Record};
///
/// let rule = std::fs::read("../../examples/swap.rule")?;
/// let feed = std::fs::read("../../examples/swap.feed")?;
///
/// let mut answers = vec![0; Record::LENGTH * feed.len()];
/// let written = run(&rule, &feed, &mut answers, 0)?;
/// assert_eq!(written, answers.len());
///
/// let records = answers.chunks(Record::LENGTH).filter_map(Record::read);
/// let notices = records.map(|record| record.notices.bits());
/// assert!(notices.eq([0, 0, 3, 0, 0, 0, 0]));
/// # Ok::<(), Box<dyn std::error::Error>>(())
/// ```
pub fn run(rule: &[u8], events: &[u8], answers: &mut [u8], place: usize) -> Result<usize, Refusal> {
    let ran = ffi::run(rule, events, answers, place);
    accepted(ran.number)?;
    Ok(ran.written)
}

/// An answer as [`run`] writes it: length 7 and kind 32, then the notice set, two bytes each and lowest first, then the status byte.
#[derive(Clone, Copy, Debug, PartialEq, Eq, Hash)]
pub struct Record {
    /// Who is to be notified.
    pub notices: Notices,
    /// How far the rule has come.
    pub status: Status,
}

impl Record {
    /// How many bytes a record has.
    pub const LENGTH: usize = 7;

    /// The record that these bytes are, if they are one.
    pub fn read(bytes: &[u8]) -> Option<Record> {
        match *bytes {
            [7, 0, 32, 0, low, high, status] => Some(Record {
                notices: Notices::from_bits(u16::from_le_bytes([low, high])),
                status: Status::from_byte(status)?,
            }),
            _ => None,
        }
    }
}
