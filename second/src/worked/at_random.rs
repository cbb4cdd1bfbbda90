//! Random cases of each kind.

use super::closing::of;
use super::{steps, Call, Case, Group};
use crate::cases::at_random::valid;
use crate::expression_file::{self, Record};
use crate::generate::busy::busy_rule;
use crate::generate::closing::Proposal;
use crate::generate::damage::randomly_damaged;
use crate::generate::equations;
use crate::generate::feeds::{events_for, random_feed, random_printer_input, random_rule};
use crate::generate::renumber::{among_others, renumbered};
use crate::generate::spoil::spoiled;
use crate::random::Random;

pub fn groups() -> Vec<Group> {
    let mut random = Random::seeded(2025);
    let mut many = |name, count, make: fn(&mut Random) -> Case| Group {
        name,
        cases: (0..count).map(|_| make(&mut random)).collect(),
    };
    vec![
        many("random feeds", 50, feed),
        many(
            "random feeds for damaged rules",
            25,
            feed_for_a_damaged_rule,
        ),
        many("random desk histories", 40, history),
        many("random rules that go on answering", 30, |random| {
            busy(random, 60)
        }),
        many("random printer inputs", 40, printer),
        many("random damaged printer inputs", 20, damaged_printer),
        many("random true proposals", 20, true_proposal),
        many("random spoiled proposals", 50, spoiled_proposal),
        many("random proposals in damaged files", 30, damaged_proposal),
        many("random pairs of random records", 20, any_proposal),
    ]
}

pub fn feed(random: &mut Random) -> Case {
    let feed = random_feed(random);
    Case::run(&feed.rule_file, &feed.events, feed.buffer.len(), feed.place)
}

pub fn feed_for_a_damaged_rule(random: &mut Random) -> Case {
    let feed = random_feed(random);
    let rule_file = randomly_damaged(random, &feed.rule_file);
    Case::run(&rule_file, &feed.events, feed.buffer.len(), feed.place)
}

pub fn history(random: &mut Random) -> Case {
    Case::Desk(openings_and_steps(random))
}

/// Openings, one in four of them damaged, and steps, which now and then come first.
pub fn openings_and_steps(random: &mut Random) -> Vec<Call> {
    let mut calls = Vec::new();
    let mut open_rule: Vec<Record> = Vec::new();
    if random.once_in(3) {
        let count = random.between(1, 3);
        calls.extend(steps(&random.bytes(count)));
    }
    for _ in 0..random.between(1, 5) {
        let records = random_rule(random);
        let mut rule_file = expression_file::write(&records);
        if random.once_in(4) {
            rule_file = randomly_damaged(random, &rule_file);
        } else {
            open_rule = records;
        }
        calls.push(Call::Open(rule_file));
        let count = random.below(14);
        calls.extend(steps(&events_for(random, &open_rule, count)));
    }
    calls
}

/// A rule that goes on answering, moved on through as many events, run, or printed.
pub fn busy(random: &mut Random, events: usize) -> Case {
    let records = busy_rule(random);
    let rule_file = expression_file::write(&records);
    let events = events_for(random, &records, events);
    match random.below(4) {
        0 => Case::run(&rule_file, &events, 7 * events.len() + 8, 4),
        1 => Case::printer(&rule_file, &events),
        _ => Case::desk(&rule_file, &events),
    }
}

pub fn printer(random: &mut Random) -> Case {
    Case::Printer(random_printer_input(random))
}

pub fn damaged_printer(random: &mut Random) -> Case {
    let input = random_printer_input(random);
    Case::Printer(randomly_damaged(random, &input))
}

/// True by an equation; some have records that aren't needed, or their records in another order.
pub fn truth(random: &mut Random) -> Proposal {
    let (_, mut proposal) = equations::true_proposal(random);
    if random.once_in(4) {
        proposal = among_others(random, &proposal);
    }
    if random.once_in(2) {
        proposal = renumbered(random, &proposal);
    }
    proposal
}

pub fn true_proposal(random: &mut Random) -> Case {
    of(&truth(random))
}

pub fn spoiled_proposal(random: &mut Random) -> Case {
    let proposal = truth(random);
    of(&spoiled(random, &proposal))
}

/// A true proposal with one fault in one of its files, which may happen to do no harm.
pub fn damaged_proposal(random: &mut Random) -> Case {
    let proposal = truth(random);
    let mut expression_file = proposal.expression_file();
    let mut pair_file = proposal.pair_file();
    if random.once_in(2) {
        expression_file = randomly_damaged(random, &expression_file);
    } else {
        pair_file = randomly_damaged(random, &pair_file);
    }
    Case::proposal(&expression_file, &pair_file)
}

/// Any records beside any pairs, which are seldom alike.
pub fn any_proposal(random: &mut Random) -> Case {
    let files = valid(random);
    Case::proposal(&files.expression_file, &files.pair_file)
}
