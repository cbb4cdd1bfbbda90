//! The desk: one rule, moved on event by event.

use crate::figures::react;
use crate::number::Number;
use crate::rule;
use crate::status::Status;
use crate::tree::Tree;

/// What remains of the open rule, if one is open.
#[derive(Clone, Debug, Default)]
pub struct Desk {
    open: Option<Tree>,
}

#[derive(Clone, Copy, Debug, PartialEq, Eq)]
pub struct StepOutcome {
    pub number: Number,
    pub notices: u16,
    pub status: Status,
    pub lines: u64,
}

impl Desk {
    pub fn empty() -> Desk {
        Desk::default()
    }

    /// Opens a rule afresh, also where one is open already. A refusal changes nothing.
    pub fn open(&mut self, rule_file: &[u8]) -> Number {
        match rule::read_running_rule(rule_file) {
            Ok(rule) => {
                self.open = Some(rule);
                Number::Accepted
            }
            Err(number) => number,
        }
    }

    /// One event. A finished rule stays open: what remains of it is silent.
    pub fn step(&mut self, event: u8) -> StepOutcome {
        let Some(rule) = &self.open else {
            return StepOutcome {
                number: Number::NoRuleOpen,
                notices: 0,
                status: Status::Waiting,
                lines: 0,
            };
        };
        let reaction = react(rule, event);
        self.open = Some(reaction.remainder);
        StepOutcome {
            number: Number::Accepted,
            notices: reaction.notices,
            status: reaction.status,
            lines: reaction.lines,
        }
    }
}
