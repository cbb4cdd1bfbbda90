//! Proposals spoiled in one place.

use crate::construct::Construct::*;
use crate::expression_file::Record;
use crate::generate::closing::Proposal;
use crate::random::Random;

/// The proposal with one thing changed. Now and then it is still true.
pub fn spoiled(random: &mut Random, proposal: &Proposal) -> Proposal {
    loop {
        let mut changed = proposal.clone();
        match random.below(9) {
            0 => drop_a_pair(random, &mut changed),
            1 => turn_a_pair_round(random, &mut changed),
            2 => name_another_record(random, &mut changed),
            3 => drop_the_last_record(&mut changed),
            _ => change_a_record(random, &mut changed),
        }
        if changed != *proposal {
            return changed;
        }
    }
}

fn drop_a_pair(random: &mut Random, proposal: &mut Proposal) {
    if proposal.pairs.len() > 1 {
        let index = random.below(proposal.pairs.len());
        proposal.pairs.remove(index);
    }
}

fn turn_a_pair_round(random: &mut Random, proposal: &mut Proposal) {
    let index = random.below(proposal.pairs.len());
    let pair = &mut proposal.pairs[index];
    (pair.left, pair.right) = (pair.right, pair.left);
}

/// One past the last record is among the choices: that record isn't there.
fn name_another_record(random: &mut Random, proposal: &mut Proposal) {
    let number = random.between(0, proposal.records.len()) as u16;
    let index = random.below(proposal.pairs.len());
    let pair = &mut proposal.pairs[index];
    if random.once_in(2) {
        pair.left = number;
    } else {
        pair.right = number;
    }
}

fn drop_the_last_record(proposal: &mut Proposal) {
    if proposal.records.len() > 1 {
        proposal.records.pop();
    }
}

fn change_a_record(random: &mut Random, proposal: &mut Proposal) {
    let index = random.below(proposal.records.len());
    let record = proposal.records[index];
    proposal.records[index] = match random.below(4) {
        0 => with_another_construct(random, record),
        _ => with_another_value(random, record, index),
    };
}

/// The same body under another kind of the same length.
fn with_another_construct(random: &mut Random, record: Record) -> Record {
    let choice = random.below(3);
    match record {
        Not(x) => Repeat(x),
        Repeat(x) => Not(x),
        Either(x, y) | Then(x, y) | Try(x, y) => match choice {
            0 => Either(x, y),
            1 => Then(x, y),
            _ => Try(x, y),
        },
        other => other,
    }
}

/// Another event, notice set or part, which may be one that isn't an earlier record.
fn with_another_value(random: &mut Random, record: Record, index: usize) -> Record {
    let part = random.between(0, index) as u16;
    let first = random.once_in(2);
    match record {
        Silent => Event(random.byte()),
        Event(event) => Event(event ^ (1 << random.below(8))),
        Not(_) => Not(part),
        Repeat(_) => Repeat(part),
        Notify(x, notices) => Notify(x, notices ^ (1 << random.below(16))),
        Either(_, y) if first => Either(part, y),
        Either(x, _) => Either(x, part),
        Then(_, y) if first => Then(part, y),
        Then(x, _) => Then(x, part),
        Try(_, y) if first => Try(part, y),
        Try(x, _) => Try(x, part),
    }
}
