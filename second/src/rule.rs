//! A rule that runs: what the whole feed, the desk and the printer have in common.

use crate::expression_file;
use crate::figures::{react, Reaction};
use crate::number::Number;
use crate::tree::Tree;

pub const LARGEST_RUNNING_SIZE: u64 = 64;

/// The rule of a file, ready to run, or the number for which it is refused.
pub fn read_running_rule(file: &[u8]) -> Result<Tree, Number> {
    let reading = expression_file::read(file);
    if !reading.number.is_accepted() {
        return Err(reading.number);
    }
    let mut trees = expression_file::trees(&reading.records);
    let rule = trees.pop().ok_or(Number::EmptyFile)?;
    if rule.size() > LARGEST_RUNNING_SIZE {
        return Err(Number::RuleTooLarge);
    }
    Ok(rule)
}

/// One reaction for each event of a feed.
pub fn react_to_all(rule: &Tree, events: &[u8]) -> Vec<Reaction> {
    let mut current = rule.clone();
    let mut reactions = Vec::new();
    for event in events {
        let reaction = react(&current, *event);
        current = reaction.remainder.clone();
        reactions.push(reaction);
    }
    reactions
}
