//! Random cases at the limits, which take long.

use crate::expression_file::{self, Record, MOST_RECORDS};
use crate::generate::damage::randomly_damaged;
use crate::generate::equations::commuting_chains;
use crate::generate::feeds::{events_for, printer_input};
use crate::generate::limits::{padded, stretched};
use crate::generate::rules::{records_with_sharing, rule_of_size};
use crate::generate::spoil::spoiled;
use crate::pair_file::{self, Pair, MOST_PAIRS};
use crate::printer::LONGEST_INPUT;
use crate::random::Random;
use crate::worked::at_random::{true_proposal, truth};
use crate::worked::closing::of;
use crate::worked::Case;

/// 254 to 258 pairs: the claim over and over, and at the end those that it needs.
pub fn many_pairs(random: &mut Random) -> Case {
    let mut proposal = truth(random);
    let needed = proposal.pairs.split_off(1);
    let count = random.between(MOST_PAIRS - 2, MOST_PAIRS + 2);
    let claim = proposal.pairs[0];
    let claims = count.saturating_sub(needed.len()).max(1);
    proposal.pairs.resize(claims, claim);
    proposal.pairs.extend(needed);
    if random.once_in(2) {
        proposal = spoiled(random, &proposal);
    }
    of(&proposal)
}

/// A record once more behind the last, which may be far behind, or another that is near to it.
pub fn record_met_again(random: &mut Random) -> Case {
    let count = random.between(2, MOST_RECORDS - 1);
    let mut records = records_with_sharing(random, count, u64::MAX);
    let again = *random.pick(&records);
    records.push(if random.once_in(2) {
        again
    } else {
        again.map(|part| part.saturating_sub(1))
    });
    let file = expression_file::write(&records);
    let number = count as u16;
    match random.below(3) {
        0 => Case::run(&file, b"a", 7, 0),
        1 => Case::desk(&file, b"a"),
        _ => Case::claim(&records, &[(number, number)]),
    }
}

/// A rule in 1,021 to 1,026 records.
fn stretched_rule(random: &mut Random) -> Vec<Record> {
    let size = random.between(1, 66);
    let records = rule_of_size(random, size);
    stretched(&records, random.between(1021, 1026))
}

pub fn many_records_on_a_feed(random: &mut Random) -> Case {
    let records = stretched_rule(random);
    let rule_file = sound_or_damaged(random, expression_file::write(&records));
    let events = events_for(random, &records, 30);
    if random.once_in(2) {
        Case::run(&rule_file, &events, 7 * 30, 0)
    } else {
        Case::desk(&rule_file, &events)
    }
}

/// Records with short bodies, since those of the longest fill the input all by themselves.
pub fn many_records_printed(random: &mut Random) -> Case {
    let size = random.between(990, 1026);
    let records = records_with_sharing(random, size, 66);
    let rule_file = expression_file::write(&records);
    let room = (LONGEST_INPUT + 2).saturating_sub(2 + rule_file.len());
    let count = random.between(0, room.min(200));
    let events = events_for(random, &records, count);
    Case::Printer(sound_or_damaged(
        random,
        printer_input(rule_file.len() as u16, &rule_file, &events),
    ))
}

/// 8,190 to 8,194 bytes, most of them events.
pub fn longest_input(random: &mut Random) -> Case {
    let size = random.between(1, 20);
    let records = rule_of_size(random, size);
    let rule_file = expression_file::write(&records);
    let count = LONGEST_INPUT + random.between(0, 4) - 2 - 2 - rule_file.len();
    let events = events_for(random, &records, count);
    Case::printer(&rule_file, &events)
}

pub fn many_records_judged(random: &mut Random) -> Case {
    let count = random.between(1000, 1026);
    let largest = *random.pick(&[64, u64::MAX]);
    let records = records_with_sharing(random, count, largest);
    let count = random.between(1, MOST_PAIRS + 1);
    let mut number = || random.below(records.len()) as u16;
    let pairs: Vec<Pair> = (0..count)
        .map(|_| Pair {
            left: number(),
            right: number(),
        })
        .collect();
    Case::proposal(&expression_file::write(&records), &pair_file::write(&pairs))
}

/// Hundreds of pairs and of records, all needed, and some that aren't up to the limits.
pub fn full_proposal(random: &mut Random) -> Case {
    let first = random.between(11, 16) as u8;
    let Some(mut proposal) = commuting_chains(first, 16) else {
        return true_proposal(random);
    };
    random.shuffle(&mut proposal.pairs[1..]);
    let pairs = random.between(proposal.pairs.len(), MOST_PAIRS + 1);
    while proposal.pairs.len() < pairs {
        let again = *random.pick(&proposal.pairs);
        proposal.pairs.push(again);
    }
    if random.once_in(2) {
        let count = random.between(MOST_RECORDS - 2, MOST_RECORDS + 1);
        proposal.records = padded(&proposal.records, count);
    }
    if random.once_in(2) {
        proposal = spoiled(random, &proposal);
    }
    of(&proposal)
}

fn sound_or_damaged(random: &mut Random, file: Vec<u8>) -> Vec<u8> {
    if random.once_in(3) {
        randomly_damaged(random, &file)
    } else {
        file
    }
}
