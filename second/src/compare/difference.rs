//! What is told where the two differ.

use std::fmt;

use crate::compare::found::{FoundDesk, Origin};
use crate::compare::Input;
use crate::hex::hex;
use crate::worked::{Call, Case};

#[derive(Clone, Debug)]
pub struct Difference {
    /// How many cases were compared before.
    pub earlier: usize,
    pub what: String,
    pub input: Input,
}

/// What differs, then everything that was given, bytes in hex.
impl fmt::Display for Difference {
    fn fmt(&self, formatter: &mut fmt::Formatter) -> fmt::Result {
        let kind = match &self.input {
            Input::Case(Case::Run { .. }) => "run",
            Input::Case(Case::Desk(_)) => "desk",
            Input::Case(Case::Proposal { .. }) => "proposal",
            Input::Case(Case::Printer(_)) => "printer",
            Input::FoundDesk(_) => "found desk",
        };
        let Difference { earlier, what, .. } = self;
        writeln!(
            formatter,
            "difference after {earlier} cases, in {kind}: {what}"
        )?;
        match &self.input {
            Input::Case(case) => write_case(formatter, case),
            Input::FoundDesk(found) => write_found(formatter, found),
        }
    }
}

fn write_case(formatter: &mut fmt::Formatter, case: &Case) -> fmt::Result {
    match case {
        Case::Run {
            rule_file,
            events,
            room,
            place,
        } => {
            writeln!(formatter, "rule {}", hex(rule_file))?;
            writeln!(formatter, "events {}", hex(events))?;
            writeln!(formatter, "room {room}\nplace {place}")
        }
        Case::Desk(calls) => write_calls(formatter, calls),
        Case::Proposal {
            expression_file,
            pair_file,
        } => {
            writeln!(formatter, "expressions {}", hex(expression_file))?;
            writeln!(formatter, "pairs {}", hex(pair_file))
        }
        Case::Printer(input) => writeln!(formatter, "input {}", hex(input)),
    }
}

fn write_found(formatter: &mut fmt::Formatter, found: &FoundDesk) -> fmt::Result {
    match &found.origin {
        Origin::Filled(fields) => {
            for (name, bytes) in fields.by_name() {
                writeln!(formatter, "field {name} {}", hex(&bytes))?;
            }
        }
        Origin::Altered { calls, changes } => {
            write_calls(formatter, calls)?;
            for change in changes {
                let (place, value) = (change.place, change.value);
                writeln!(formatter, "byte {place} of the fields becomes {value:02x}")?;
            }
        }
    }
    writeln!(formatter, "history")?;
    write_calls(formatter, &found.calls)
}

fn write_calls(formatter: &mut fmt::Formatter, calls: &[Call]) -> fmt::Result {
    calls.iter().try_for_each(|call| match call {
        Call::Open(rule_file) => writeln!(formatter, "open {}", hex(rule_file)),
        Call::Step(event) => writeln!(formatter, "step {event:02x}"),
    })
}
