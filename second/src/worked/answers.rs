//! What comes back for a case, as lines of text.

use super::{Call, Case};
use crate::desk::Desk;
use crate::feed;
use crate::hex::hex;
use crate::printer;
use crate::proposal;

/// The byte that fills a buffer before the feed is run.
pub const FILL: u8 = 0xa5;

/// The lines of all cases, one after the other.
pub fn answers(cases: &[Case]) -> String {
    cases.iter().map(answer).collect()
}

pub fn answer(case: &Case) -> String {
    match case {
        Case::Run {
            rule_file,
            events,
            room,
            place,
        } => run(rule_file, events, *room, *place),
        Case::Desk(calls) => desk(calls),
        Case::Proposal {
            expression_file,
            pair_file,
        } => judge(expression_file, pair_file),
        Case::Printer(input) => printer::printed(input),
    }
}

/// `run NUMBER WRITTEN HEX`, where HEX is the whole buffer afterwards.
fn run(rule_file: &[u8], events: &[u8], room: usize, place: usize) -> String {
    let mut buffer = vec![FILL; room];
    let outcome = feed::run(rule_file, events, &mut buffer, place);
    let buffer = hex(&buffer);
    format!("run {} {} {buffer}\n", outcome.number, outcome.written)
}

/// A line per call: `open NUMBER` or `step NUMBER NOTICES STATUS LINES`.
fn desk(calls: &[Call]) -> String {
    let mut desk = Desk::empty();
    let mut text = String::new();
    for call in calls {
        text.push_str(&match call {
            Call::Open(rule_file) => format!("open {}\n", desk.open(rule_file)),
            Call::Step(event) => {
                let step = desk.step(*event);
                let status = step.status.byte();
                format!(
                    "step {} {} {status} {}\n",
                    step.number, step.notices, step.lines
                )
            }
        });
    }
    text
}

/// `judge NUMBER FILE PLACE`, where the shown part is FILE (0 expressions, 1 pairs) from PLACE on.
fn judge(expression_file: &[u8], pair_file: &[u8]) -> String {
    let verdict = proposal::judge(expression_file, pair_file);
    let file = verdict.file as u8;
    format!("judge {} {file} {}\n", verdict.number, verdict.place)
}
