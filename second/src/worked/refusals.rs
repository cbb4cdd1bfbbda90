//! Refused files, each in every call that reads it, and steps on a desk with no rule open.

use super::{steps, Call, Case, Group};
use crate::cases::{faults, layout, limits, orders, Expected};
use crate::construct::Construct::Repeat;
use crate::examples::swap_file;
use crate::expression_file;
use crate::generate::damage::cut_at_every_byte;
use crate::generate::feeds::printer_input;
use crate::generate::limits::{chain_of_nots, doubling, many_notifies, past_a_power_of_two};
use crate::number::Number::{self, *};
use crate::pair_file::{write_pair, Pair};

pub fn groups() -> Vec<Group> {
    let group = |name, cases| Group { name, cases };
    vec![
        group("refused rule files", refused_rules()),
        group("records met again far behind", met_again()),
        group("refused pair files", refused_pairs()),
        group("rules too large to run", too_large()),
        group("steps on a desk with no rule open", no_rule_open()),
        group("openings on a desk with a rule open", reopened()),
        group("printer inputs shorter than they say", short_inputs()),
    ]
}

/// How many files stand for each number.
const FILES_EACH: usize = 3;

/// A few files of the lists made for a number, from all over them.
fn made_for(number: Number, lists: &[Vec<Expected>]) -> Vec<Vec<u8>> {
    let mut files: Vec<Vec<u8>> = Vec::new();
    for (made_for, file) in lists.iter().flatten() {
        if *made_for == number && !files.contains(file) {
            files.push(file.clone());
        }
    }
    let apart = files.len().div_ceil(FILES_EACH).max(1);
    files.into_iter().step_by(apart).collect()
}

fn refused_rules() -> Vec<Case> {
    let lists = [
        faults::cut_short(),
        faults::not_earlier(),
        faults::met_before(),
        orders::in_one_record(),
        layout::kinds(),
        layout::lengths(),
        limits::record_counts(),
    ];
    let mut files = vec![vec![]];
    for number in [
        CutShort,
        UnknownKind,
        WrongLength,
        NotAnEarlierRecord,
        SameAsEarlierRecord,
        TooManyRecords,
    ] {
        files.extend(made_for(number, &lists));
    }
    files.iter().flat_map(|file| in_every_call(file)).collect()
}

/// A record is the same as an earlier one however many stand between them.
fn met_again() -> Vec<Case> {
    let mut cases = Vec::new();
    for (count, again) in [(257, 0), (300, 43), (1023, 3)] {
        for mut records in [many_notifies(count), chain_of_nots(count)] {
            records.push(records[again]);
            let file = expression_file::write(&records);
            cases.push(Case::run(&file, b"a", 9, 1));
            records.pop();
            records.push(Repeat(again as u16));
            cases.push(Case::desk(&expression_file::write(&records), b"aa"));
        }
    }
    cases
}

/// The desk goes on with the rule that was open, as if nothing had been asked of it.
fn in_every_call(rule_file: &[u8]) -> Vec<Case> {
    let pair = write_pair(&Pair { left: 0, right: 0 });
    let mut cases = vec![
        Case::run(rule_file, b"ab", 17, 2),
        Case::Desk(interrupted_by(rule_file)),
        Case::proposal(rule_file, &pair),
        Case::printer(rule_file, b"ab"),
    ];
    if rule_file.len() < 100 {
        cases.push(Case::run(rule_file, b"", 5, 5));
    }
    cases
}

fn interrupted_by(rule_file: &[u8]) -> Vec<Call> {
    let mut calls = vec![Call::Open(swap_file())];
    calls.extend(steps(b"oa"));
    calls.push(Call::Open(rule_file.to_vec()));
    calls.extend(steps(b"co"));
    calls
}

fn refused_pairs() -> Vec<Case> {
    let lists = [
        faults::pairs_cut_short(),
        faults::no_such_record(),
        orders::in_one_pair(),
        layout::pair_kinds(),
        layout::pair_lengths(),
        limits::pair_counts(),
    ];
    let mut cases = vec![
        Case::proposal(&swap_file(), &[]),
        Case::proposal(&expression_file::write(&chain_of_nots(3)), &[]),
        Case::proposal(&swap_file()[..5], &[]),
        // the expression file comes first
        Case::proposal(&[], &[]),
        Case::proposal(&[], &[8, 0]),
        Case::proposal(&swap_file()[..7], &[8, 0]),
    ];
    for number in [
        CutShort,
        UnknownKind,
        WrongLength,
        TooManyRecords,
        PairNamesNoRecord,
    ] {
        let files = made_for(number, &lists);
        let beside_swap = |file: &Vec<u8>| Case::proposal(&swap_file(), file);
        cases.extend(files.iter().map(beside_swap));
    }
    cases
}

/// Some of them so large that a size kept in few bits would be small.
fn too_large() -> Vec<Case> {
    let mut cases = Vec::new();
    for rule in [
        chain_of_nots(66),
        chain_of_nots(320),
        doubling(7),
        past_a_power_of_two(8, 2),
        past_a_power_of_two(16, 2),
        past_a_power_of_two(32, 2),
        past_a_power_of_two(64, 2),
        doubling(1024),
    ] {
        let file = expression_file::write(&rule);
        cases.push(Case::run(&file, b"ab", 17, 2));
        cases.push(Case::Desk(interrupted_by(&file)));
        cases.push(Case::printer(&file, b"ab"));
    }
    cases
}

fn no_rule_open() -> Vec<Case> {
    let too_large = expression_file::write(&chain_of_nots(65));
    let first = |call: Call, more: Vec<Call>| Case::Desk([vec![call], more].concat());
    vec![
        Case::Desk(vec![]),
        Case::Desk(steps(b"a").collect()),
        Case::Desk(steps(b"\0\xffoac").collect()),
        Case::desk(&[], b"oa"),
        Case::desk(&too_large, b"oa"),
        Case::desk(&swap_file()[..57], b"oac"),
        first(Call::Step(b'o'), interrupted_by(&too_large)),
        first(Call::Open(vec![9]), interrupted_by(&[])),
    ]
}

/// Fresh each time, in the middle of a rule and behind the end of one.
fn reopened() -> Vec<Case> {
    let single = expression_file::write(&chain_of_nots(2));
    let in_turn = |files: &[&[u8]], events: &[u8]| {
        let opened = |file: &&[u8]| {
            let mut calls = vec![Call::Open(file.to_vec())];
            calls.extend(steps(events));
            calls
        };
        Case::Desk(files.iter().flat_map(opened).collect())
    };
    let swap = swap_file();
    vec![
        in_turn(&[&swap, &swap, &swap], b"oa"),
        in_turn(&[&swap, &single, &swap], b"oac"),
        in_turn(&[&single, &single], b"aa"),
        in_turn(&[&swap, &swap[..40], &swap], b"oaw"),
        in_turn(&[&single, &[], &swap], b"ba"),
        in_turn(&[&swap, &swap], b""),
    ]
}

/// Cut in every place, and the length off by a little.
fn short_inputs() -> Vec<Case> {
    let sound = printer_input(58, &swap_file(), b"oa");
    let mut cases: Vec<Case> = cut_at_every_byte(&sound)
        .into_iter()
        .step_by(3)
        .map(Case::Printer)
        .collect();
    for length in [0, 1, 52, 57, 58, 59, 60, 61, 0x3a00, 65535] {
        cases.push(Case::Printer(printer_input(length, &swap_file(), b"oa")));
    }
    cases
}
