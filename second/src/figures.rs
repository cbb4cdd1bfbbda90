//! What an expression does on an event: the paper's figures 3, 4 and 5 and its rules for silent.

use crate::construct::Construct::{self, *};
use crate::status::Status::{self, *};
use crate::tree::{build, Known, Tree};

/// Everything one event brings out of one expression.
#[derive(Clone, Debug)]
pub struct Reaction {
    pub status: Status,
    pub notices: u16,
    /// How many lines of the status rules were used.
    pub lines: u64,
    pub remainder: Tree,
}

/// The reaction of one expression to one event.
pub fn react(tree: &Tree, event: u8) -> Reaction {
    Reactor::on(event).react(tree)
}

/// Reactions to one event, each tree worked out once however often it is shared.
pub struct Reactor {
    event: u8,
    known: Known<Reaction>,
}

impl Reactor {
    pub fn on(event: u8) -> Reactor {
        Reactor {
            event,
            known: Known::nothing(),
        }
    }

    pub fn react(&mut self, tree: &Tree) -> Reaction {
        if let Some(reaction) = self.known.get(tree) {
            return reaction;
        }
        let construct = tree.construct();
        let parts: Vec<Reaction> = construct
            .parts_at_work()
            .into_iter()
            .map(|part| self.react(part))
            .collect();
        let status = status_by_figure_3(construct, self.event, &parts);
        let reaction = Reaction {
            status,
            notices: notices_by_figure_5(construct, &parts),
            lines: lines_by_figure_3(construct, &parts),
            // The rule (Silent): every expression becomes silent once it succeeds or fails.
            remainder: if status == Waiting {
                remainder_by_figure_4(tree, &parts)
            } else {
                build::silent()
            },
        };
        self.known.note(tree, reaction.clone());
        reaction
    }
}

/// The figure writes "no higher than waiting" as the lower of the two, "selection" as the higher.
fn status_by_figure_3(construct: &Construct<Tree>, event: u8, parts: &[Reaction]) -> Status {
    match construct {
        Silent => Waiting,
        Event(awaited) if *awaited == event => Success,
        Event(_) => Waiting,
        Not(_) => parts[0].status.opposite(),
        Either(..) => parts[0].status.max(parts[1].status),
        Then(..) | Repeat(_) => parts[0].status.min(Waiting),
        Notify(..) => parts[0].status,
        Try(..) if parts[0].status != Waiting => parts[0].status,
        Try(..) => parts[1].status.opposite().min(Waiting),
    }
}

/// What remains of an expression whose status is waiting.
///
/// A premise on an unfinished part is read with "and is waiting".
fn remainder_by_figure_4(tree: &Tree, parts: &[Reaction]) -> Tree {
    match tree.construct() {
        Silent | Event(_) => tree.clone(),
        Not(_) => build::not(&parts[0].remainder),
        Notify(_, notices) => build::notify(&parts[0].remainder, *notices),
        Then(_, y) => match parts[0].status {
            Waiting => build::then(&parts[0].remainder, y),
            Success => y.clone(),
            Failure => unreachable!("then has failed with its first part"),
        },
        Repeat(_) => match parts[0].status {
            Waiting => build::then(&parts[0].remainder, tree),
            Success => tree.clone(),
            Failure => unreachable!("repeat has failed with its part"),
        },
        Either(..) => match (parts[0].status, parts[1].status) {
            (Waiting, Waiting) => build::either(&parts[0].remainder, &parts[1].remainder),
            (Failure, Waiting) => parts[1].remainder.clone(),
            (Waiting, Failure) => parts[0].remainder.clone(),
            _ => unreachable!("either has succeeded, or failed with both parts"),
        },
        Try(..) => match (parts[0].status, parts[1].status) {
            (Waiting, Waiting) => build::try_unless(&parts[0].remainder, &parts[1].remainder),
            (Waiting, Failure) => parts[0].remainder.clone(),
            _ => unreachable!("try has completed with x, or failed as y succeeded"),
        },
    }
}

fn notices_by_figure_5(construct: &Construct<Tree>, parts: &[Reaction]) -> u16 {
    match construct {
        Silent | Event(_) => 0,
        Not(_) | Then(..) | Repeat(_) => parts[0].notices,
        Notify(_, notices) if parts[0].status == Success => parts[0].notices | notices,
        Notify(..) => parts[0].notices,
        Either(..) | Try(..) => parts[0].notices | parts[1].notices,
    }
}

/// One line for the rule that gives the status, beside the lines of its premises.
///
/// The figure's first rule for try, where the try part completes, has no premise about the unless part.
fn lines_by_figure_3(construct: &Construct<Tree>, parts: &[Reaction]) -> u64 {
    let premises = match construct {
        Try(..) if parts[0].status != Waiting => &parts[..1],
        _ => parts,
    };
    premises
        .iter()
        .fold(1u64, |sum, part| sum.saturating_add(part.lines))
}
