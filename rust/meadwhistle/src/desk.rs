//! A rule that takes its events one by one.

use std::fmt;

use crate::ffi;
use crate::refusal::{accepted, Refusal};
use crate::{Notices, Status};

/// A place for one rule, which takes its events one by one.
///
/// It is about 700 bytes and holds all that the engine knows, so a clone goes its own way from there.
///
/// ```
/// use meadwhistle::{Desk, Status};
///
/// let rule = std::fs::read("../../examples/swap.rule")?;
/// let mut desk = Desk::new();
/// desk.open(&rule)?;
///
/// desk.step(b'o')?; // offered
/// desk.step(b'a')?; // accepted
/// let mut withdrawn = desk.clone();
/// assert_eq!(desk.step(b'c')?.notices.bits(), 3); // confirmed: recipients 0 and 1
/// assert_eq!(withdrawn.step(b'w')?.status, Status::Failure);
/// # Ok::<(), Box<dyn std::error::Error>>(())
/// ```
#[derive(Clone)]
pub struct Desk(ffi::Desk);

/// What a rule answers to one event.
#[derive(Clone, Copy, Debug, PartialEq, Eq, Hash)]
pub struct Answer {
    /// Who is to be notified.
    pub notices: Notices,
    /// How far the rule has come.
    pub status: Status,
    /// How many rules of the paper's figure 3 the status took, each as often as it was used: never more than the rule has nodes,
    /// however many events went before.
    pub lines: u64,
}

impl Desk {
    /// A desk with no rule open.
    pub fn new() -> Desk {
        Desk(ffi::desk_empty())
    }

    /// Opens a rule, fresh, also where one is open. Where the rule file is refused, the desk stays as it was.
    ///
    /// # Errors
    ///
    /// What is wrong with the rule file, or [`Refusal::RuleTooLarge`].
    pub fn open(&mut self, rule: &[u8]) -> Result<(), Refusal> {
        accepted(ffi::desk_open(&mut self.0, rule))
    }

    /// Moves the rule on by one event. A finished rule stays open and silent.
    ///
    /// # Errors
    ///
    /// [`Refusal::NoRuleOpen`] on a desk with no rule open.
    pub fn step(&mut self, event: u8) -> Result<Answer, Refusal> {
        let reply = ffi::desk_step(&mut self.0, event);
        accepted(reply.number)?;
        Ok(Answer {
            notices: Notices::from_bits(reply.notices),
            // The engine gives no byte that isn't a status.
            status: Status::from_byte(reply.status).unwrap_or(Status::Waiting),
            lines: reply.lines,
        })
    }
}

impl Default for Desk {
    fn default() -> Desk {
        Desk::new()
    }
}

impl fmt::Debug for Desk {
    fn fmt(&self, formatter: &mut fmt::Formatter) -> fmt::Result {
        formatter.debug_struct("Desk").finish_non_exhaustive()
    }
}
