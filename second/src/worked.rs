//! Cases for an engine at work, a fixed sequence of them, and the answers as lines of text.
//!
//! * [`sequence`]: the cases as bytes; [`answers`]: the lines;
//! * [`examples`]: the worked examples; [`edges`]: sizes, counts, room and place at their limits;
//! * [`refusals`]: refused files; [`closing`]: proposals at fault in what they claim;
//! * [`at_random`]: random cases of each kind.

use crate::expression_file::{self, Record};
use crate::generate::feeds::printer_input;
use crate::pair_file::{self, Pair};

pub mod answers;
pub mod at_random;
pub mod closing;
pub mod edges;
pub mod examples;
pub mod refusals;
pub mod sequence;

/// What an engine is asked, with everything that is handed to it.
#[derive(Clone, Debug, PartialEq, Eq)]
pub enum Case {
    /// A whole feed, with a buffer of `room` bytes.
    Run {
        rule_file: Vec<u8>,
        events: Vec<u8>,
        room: usize,
        place: usize,
    },
    /// Calls on a desk that begins empty.
    Desk(Vec<Call>),
    Proposal {
        expression_file: Vec<u8>,
        pair_file: Vec<u8>,
    },
    /// An input for the printer.
    Printer(Vec<u8>),
}

#[derive(Clone, Debug, PartialEq, Eq)]
pub enum Call {
    Open(Vec<u8>),
    Step(u8),
}

impl Case {
    pub fn run(rule_file: &[u8], events: &[u8], room: usize, place: usize) -> Case {
        Case::Run {
            rule_file: rule_file.to_vec(),
            events: events.to_vec(),
            room,
            place,
        }
    }

    /// The rule is opened and moved on through the events.
    pub fn desk(rule_file: &[u8], events: &[u8]) -> Case {
        let mut calls = vec![Call::Open(rule_file.to_vec())];
        calls.extend(steps(events));
        Case::Desk(calls)
    }

    pub fn proposal(expression_file: &[u8], pair_file: &[u8]) -> Case {
        Case::Proposal {
            expression_file: expression_file.to_vec(),
            pair_file: pair_file.to_vec(),
        }
    }

    pub fn claim(records: &[Record], pairs: &[(u16, u16)]) -> Case {
        let pair = |&(left, right): &(u16, u16)| Pair { left, right };
        let pairs: Vec<Pair> = pairs.iter().map(pair).collect();
        Case::proposal(&expression_file::write(records), &pair_file::write(&pairs))
    }

    /// A printer input that says the rule file's true length.
    pub fn printer(rule_file: &[u8], events: &[u8]) -> Case {
        Case::Printer(printer_input(rule_file.len() as u16, rule_file, events))
    }
}

pub fn steps(events: &[u8]) -> impl Iterator<Item = Call> + '_ {
    events.iter().map(|event| Call::Step(*event))
}

/// Cases of one sort.
pub struct Group {
    pub name: &'static str,
    pub cases: Vec<Case>,
}

/// All groups, always the same.
pub fn groups() -> Vec<Group> {
    let mut groups = Vec::new();
    groups.extend(examples::groups());
    groups.extend(edges::groups());
    groups.extend(refusals::groups());
    groups.extend(closing::groups());
    groups.extend(at_random::groups());
    groups
}

/// The cases of all groups, one after the other.
pub fn all() -> Vec<Case> {
    groups().into_iter().flat_map(|group| group.cases).collect()
}

/// The cases that are stored: all but the printer's inputs, since the printer is a program of its own.
pub fn stored() -> Vec<Case> {
    let is_stored = |case: &Case| !matches!(case, Case::Printer(_));
    all().into_iter().filter(is_stored).collect()
}
