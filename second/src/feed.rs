//! Running a rule over a whole feed.

use crate::figures::Reaction;
use crate::number::Number;
use crate::records;
use crate::rule;

pub const ANSWER_KIND: u16 = 32;
pub const ANSWER_LENGTH: usize = 7;

#[derive(Clone, Copy, Debug, PartialEq, Eq)]
pub struct FeedOutcome {
    pub number: Number,
    /// Bytes written, from the place on.
    pub written: usize,
}

/// Writes an answer per event into the buffer from the place on. A refusal leaves every byte alone.
pub fn run(rule_file: &[u8], events: &[u8], buffer: &mut [u8], place: usize) -> FeedOutcome {
    match answers(rule_file, events, buffer.len(), place) {
        Ok(bytes) => {
            buffer[place..place + bytes.len()].copy_from_slice(&bytes);
            FeedOutcome {
                number: Number::Accepted,
                written: bytes.len(),
            }
        }
        Err(number) => FeedOutcome { number, written: 0 },
    }
}

/// All answers, worked out before the first of them is written.
fn answers(
    rule_file: &[u8],
    events: &[u8],
    buffer_length: usize,
    place: usize,
) -> Result<Vec<u8>, Number> {
    let rule = rule::read_running_rule(rule_file)?;
    let room = buffer_length.checked_sub(place).ok_or(Number::NoRoom)?;
    if room / ANSWER_LENGTH < events.len() {
        return Err(Number::NoRoom);
    }
    let reactions = rule::react_to_all(&rule, events);
    Ok(reactions.iter().flat_map(answer_record).collect())
}

/// The 7-byte record of one answer.
pub fn answer_record(reaction: &Reaction) -> Vec<u8> {
    let mut body = records::body_of(&[reaction.notices]);
    body.push(reaction.status.byte());
    records::record(ANSWER_KIND, &body)
}
