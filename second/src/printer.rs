//! The text the printer writes for an input.

use crate::number::Number;
use crate::records::two_bytes;
use crate::rule;

pub const LONGEST_INPUT: usize = 8192;

/// The whole output, refusals included.
pub fn printed(input: &[u8]) -> String {
    answers(input).unwrap_or_else(|number| format!("refused {number}\n"))
}

fn answers(input: &[u8]) -> Result<String, Number> {
    let (rule_file, events) = split(input)?;
    let rule = rule::read_running_rule(rule_file)?;
    let reactions = rule::react_to_all(&rule, events);
    let mut text = format!("rule {}\n", rule.size());
    for (event, reaction) in events.iter().zip(reactions) {
        let notices = reaction.notices;
        let status = reaction.status.word();
        text.push_str(&format!("{event:02x} {notices:04x} {status}\n"));
    }
    Ok(text)
}

/// The rule file and the events behind it.
fn split(input: &[u8]) -> Result<(&[u8], &[u8]), Number> {
    if input.len() > LONGEST_INPUT {
        return Err(Number::InputTooLong);
    }
    if input.len() < 2 {
        return Err(Number::CutShort);
    }
    let (length, rest) = input.split_at(2);
    rest.split_at_checked(usize::from(two_bytes(length, 0)))
        .ok_or(Number::CutShort)
}
