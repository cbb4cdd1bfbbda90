//! The fixed sequence of worked cases, and the lines that answer it.

use std::collections::{BTreeSet, HashMap, HashSet};

use second::compare::{mix, Input};
use second::construct::Construct::*;
use second::examples::swap_file;
use second::worked::answers::{answer, answers};
use second::worked::{all, groups, sequence, Call, Case};

#[test]
fn the_sequence_is_fixed_and_reads_back() {
    let bytes = sequence::write(&all());
    assert_eq!(bytes, sequence::write(&all()));
    assert!(bytes.len() <= 600_000);
    assert_eq!(sequence::read(&bytes), Some(all()));
    assert!(groups().iter().all(|group| !group.cases.is_empty()));
}

#[test]
fn what_is_no_sequence_is_not_read() {
    let case = Case::run(&swap_file(), b"oac", 30, 2);
    let bytes = sequence::write(&[case, Case::desk(&swap_file(), b"oac")]);
    let first = 1 + 4 + 58 + 4 + 3 + 4 + 4;
    for end in 1..bytes.len() {
        let is_whole = end == first;
        assert_eq!(sequence::read(&bytes[..end]).is_some(), is_whole, "{end}");
    }
    for kind in [0, 5, 255] {
        assert_eq!(sequence::read(&[kind, 0, 0, 0, 0]), None);
    }
    // a call that is neither an opening nor a step, and two calls cut short
    for calls in [&[2, 0][..], &[1], &[0, 1, 0]] {
        let length = calls.len() as u8;
        let bytes = [&[2, length, 0, 0, 0], calls].concat();
        assert_eq!(sequence::read(&bytes), None);
    }
}

#[test]
fn cases_are_laid_out_as_described() {
    let run = Case::run(&[7, 8], &[9], 0x0102, 0x01020304);
    let stored = [1, 2, 0, 0, 0, 7, 8, 1, 0, 0, 0, 9, 2, 1, 0, 0, 4, 3, 2, 1];
    assert_eq!(sequence::write(&[run]), stored);
    let desk = Case::Desk(vec![Call::Step(5), Call::Open(vec![7, 8])]);
    let stored = [2, 9, 0, 0, 0, 1, 5, 0, 2, 0, 0, 0, 7, 8];
    assert_eq!(sequence::write(&[desk]), stored);
    let proposal = Case::proposal(&[7, 8], &[9]);
    let stored = [3, 2, 0, 0, 0, 7, 8, 1, 0, 0, 0, 9];
    assert_eq!(sequence::write(&[proposal]), stored);
    let printer = Case::Printer(vec![6]);
    assert_eq!(sequence::write(&[printer]), [4, 1, 0, 0, 0, 6]);
}

#[test]
fn every_case_is_of_moderate_size() {
    let file_is_moderate = |file: &Vec<u8>| file.len() <= 16_384;
    for case in all() {
        assert!(match &case {
            Case::Run {
                rule_file,
                events,
                room,
                place,
            } => {
                let place_fits = u32::try_from(*place).is_ok();
                file_is_moderate(rule_file) && events.len() <= 600 && *room <= 512 && place_fits
            }
            Case::Desk(calls) => file_is_moderate(&sequence::write_calls(calls)),
            Case::Proposal {
                expression_file,
                pair_file,
            } => file_is_moderate(expression_file) && file_is_moderate(pair_file),
            Case::Printer(input) => file_is_moderate(input),
        });
    }
    assert!(answers(&all()).len() < 400_000);
}

/// The number that a line tells, with the call it came from; none where the line is an event's.
fn told(line: &str) -> Option<(&str, u8)> {
    let mut words = line.split(' ');
    match words.next()? {
        "rule" => Some(("printer", 0)),
        "refused" => Some(("printer", words.next()?.parse().ok()?)),
        call @ ("run" | "open" | "step" | "judge") => Some((call, words.next()?.parse().ok()?)),
        _ => None,
    }
}

#[test]
fn every_number_comes_from_three_different_inputs() {
    let mut inputs: HashMap<(String, u8), HashSet<Vec<u8>>> = HashMap::new();
    for case in all() {
        for line in answer(&case).lines() {
            if let Some((call, number)) = told(line) {
                let input = sequence::write(std::slice::from_ref(&case));
                let key = (call.to_string(), number);
                inputs.entry(key).or_default().insert(input);
            }
        }
    }
    let expected: [(&str, &[u8]); 5] = [
        ("run", &[0, 1, 2, 3, 4, 5, 6, 7, 8, 9]),
        ("open", &[0, 1, 2, 3, 4, 5, 6, 7, 8]),
        ("step", &[0, 15]),
        ("judge", &[0, 1, 2, 3, 4, 5, 6, 7, 10, 11, 12, 13, 14]),
        ("printer", &[0, 1, 2, 3, 4, 5, 6, 7, 8, 17]),
    ];
    for (call, numbers) in expected {
        for number in numbers {
            let key = (call.to_string(), *number);
            let found = inputs.remove(&key).unwrap_or_default().len();
            assert!(found >= 3, "{call} {number}: {found}");
        }
    }
    assert!(inputs.is_empty(), "{:?}", inputs.keys());
}

/// Those that `./test` compares.
#[test]
fn random_inputs_bring_up_every_number_and_no_other() {
    let mut numbers = BTreeSet::new();
    for input in mix::inputs(25_000, 1) {
        if let Input::Case(case) = input {
            let lines = answer(&case);
            numbers.extend(lines.lines().filter_map(told).map(|(_, number)| number));
        }
    }
    let expected = (0..=15).chain([17]);
    assert_eq!(Vec::from_iter(numbers), Vec::from_iter(expected));
}

#[test]
fn answer_lines_have_the_form_described() {
    assert_eq!(
        answer(&Case::run(&swap_file(), b"c", 10, 2)),
        "run 0 7 a5a507002000000000a5\n"
    );
    assert_eq!(
        answer(&Case::run(&swap_file(), b"c", 3, 0)),
        "run 9 0 a5a5a5\n"
    );
    assert_eq!(answer(&Case::run(&[], b"", 0, 0)), "run 1 0 \n");
    let mut calls = vec![Call::Step(b'o'), Call::Open(vec![9])];
    calls.extend([Call::Open(swap_file()), Call::Step(b'o'), Call::Step(b'a')]);
    calls.extend([Call::Step(b'c'), Call::Step(b'o'), Call::Step(b'w')]);
    assert_eq!(
        answer(&Case::Desk(calls)),
        "step 15 0 0 0\nopen 2\nopen 0\nstep 0 0 0 3\nstep 0 0 0 6\nstep 0 3 0 4\n\
         step 0 0 0 3\nstep 0 0 2 6\n"
    );
    let claim = Case::claim(&[Event(b'a'), Silent, Not(0)], &[(0, 0), (0, 2)]);
    assert_eq!(answer(&claim), "judge 11 1 8\n");
    assert_eq!(answer(&Case::proposal(&[], &[])), "judge 1 0 0\n");
    let printed = Case::printer(&swap_file(), b"o");
    assert_eq!(answer(&printed), "rule 9\n6f 0000 waiting\n");
}
