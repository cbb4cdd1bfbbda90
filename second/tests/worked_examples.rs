//! The worked examples: the swap rule, the printer's output, P1 to P10.

use second::construct::Construct::*;
use second::desk::Desk;
use second::examples::{swap_file, swap_records};
use second::expression_file::{self, Record};
use second::feed;
use second::number::Number::{self, *};
use second::pair_file::{self, Pair};
use second::printer::printed;
use second::proposal::{judge, ShownFile, Verdict};
use second::status::Status::{self, *};

/// Notices, status and lines of each event.
fn steps(records: &[Record], events: &[u8]) -> Vec<(u16, Status, u64)> {
    let mut desk = Desk::empty();
    assert_eq!(desk.open(&expression_file::write(records)), Accepted);
    let outcomes = events.iter().map(|event| {
        let outcome = desk.step(*event);
        assert_eq!(outcome.number, Accepted);
        (outcome.notices, outcome.status, outcome.lines)
    });
    outcomes.collect()
}

fn answers(records: &[Record], events: &[u8]) -> Vec<(u16, Status)> {
    let steps = steps(records, events).into_iter();
    steps
        .map(|(notices, status, _)| (notices, status))
        .collect()
}

fn verdict(records: &[Record], pairs: &[(u16, u16)]) -> Verdict {
    let pairs: Vec<Pair> = pairs
        .iter()
        .map(|(left, right)| Pair {
            left: *left,
            right: *right,
        })
        .collect();
    judge(&expression_file::write(records), &pair_file::write(&pairs))
}

/// The verdict on a proposal whose only or first pair is the one to be shown.
fn shows_first_pair(number: Number) -> Verdict {
    Verdict {
        number,
        file: ShownFile::Pairs,
        place: 0,
    }
}

fn accepted_with(pairs: usize) -> Verdict {
    Verdict {
        number: Accepted,
        file: ShownFile::Pairs,
        place: 8 * pairs,
    }
}

#[test]
fn the_swap_file_has_the_bytes_shown() {
    let hex = "050002006f 0500020061 0500020063 0500020077 0800050001000200 0800070004000300 \
               0800080005000300 0800050000000600 060006000700";
    let digits: Vec<char> = hex.chars().filter(|digit| *digit != ' ').collect();
    let bytes: Vec<u8> = digits
        .chunks(2)
        .map(|two| u8::from_str_radix(&two.iter().collect::<String>(), 16).unwrap())
        .collect();
    assert_eq!(swap_file(), bytes);
    assert_eq!(bytes.len(), 0x3a);
    let reading = expression_file::read(&bytes);
    assert_eq!(reading.number, Accepted);
    assert_eq!(reading.place, bytes.len());
    assert_eq!(reading.records, swap_records());
    assert_eq!(expression_file::rule_size(&reading.records), 9);
}

#[test]
fn the_printer_writes_the_output_shown() {
    let mut input = vec![0x3a, 0x00];
    input.extend(swap_file());
    input.extend(b"oacoawc");
    let output = "rule 9\n\
                  6f 0000 waiting\n\
                  61 0000 waiting\n\
                  63 0003 waiting\n\
                  6f 0000 waiting\n\
                  61 0000 waiting\n\
                  77 0000 failure\n\
                  63 0000 waiting\n";
    assert_eq!(printed(&input), output);
}

#[test]
fn p1_notices_and_statuses_of_the_swap_rule() {
    let expected = [
        (0, Waiting),
        (0, Waiting),
        (3, Waiting),
        (0, Waiting),
        (0, Waiting),
        (0, Failure),
        (0, Waiting),
    ];
    assert_eq!(answers(&swap_records(), b"oacoawc"), expected);
}

#[test]
fn p1_as_answer_records() {
    let mut buffer = [0xee; 60];
    let outcome = feed::run(&swap_file(), b"oacoawc", &mut buffer, 5);
    assert_eq!((outcome.number, outcome.written), (Accepted, 49));
    let mut expected = vec![0xee; 5];
    for (notices, status) in [(0, 0), (0, 0), (3, 0), (0, 0), (0, 0), (0, 2), (0, 0)] {
        expected.extend([7, 0, 32, 0, notices, 0, status]);
    }
    expected.extend([0xee; 6]);
    assert_eq!(buffer, expected[..]);
}

#[test]
fn p2_lines_of_the_first_three_steps() {
    let lines: Vec<u64> = steps(&swap_records(), b"oac")
        .into_iter()
        .map(|(_, _, lines)| lines)
        .collect();
    assert_eq!(lines, [3, 6, 4]);
}

#[test]
fn p3_the_suppliers_form() {
    let records = [
        Event(b'o'),
        Event(b'a'),
        Event(b'c'),
        Event(b'w'),
        Notify(1, 1),
        Then(4, 2),
        Notify(5, 2),
        Try(6, 3),
        Then(0, 7),
        Repeat(8),
    ];
    let expected = [(0, Waiting), (1, Waiting), (0, Failure)];
    assert_eq!(answers(&records, b"oaw"), expected);
}

#[test]
fn p4_the_try_part_wins() {
    let records = [Event(b'a'), Try(0, 0)];
    assert_eq!(answers(&records, b"a"), [(0, Success)]);
}

#[test]
fn p5_and_p6_either_way_round() {
    let records = [Event(b'a'), Event(b'b'), Either(0, 1), Either(1, 0), Silent];
    assert_eq!(verdict(&records, &[(2, 3)]), accepted_with(1));
    assert_eq!(
        verdict(&records[..4], &[(2, 3)]),
        shows_first_pair(RemainderNotInFile)
    );
}

#[test]
fn p7_repeat_unrolled_once() {
    let records = [Event(b'a'), Repeat(0), Then(0, 1)];
    assert_eq!(verdict(&records, &[(1, 2)]), accepted_with(1));
}

#[test]
fn p8_notices_differ() {
    let records = [Event(b'a'), Notify(0, 1), Notify(0, 2)];
    assert_eq!(
        verdict(&records, &[(1, 2)]),
        shows_first_pair(NoticesDiffer)
    );
}

#[test]
fn p9_statuses_differ() {
    let records = [Event(b'a'), Not(0)];
    assert_eq!(
        verdict(&records, &[(0, 1)]),
        shows_first_pair(StatusesDiffer)
    );
}

#[test]
fn p10_listed_in_that_order() {
    let records = [Event(b'a'), Repeat(0), Then(0, 1), Then(0, 2)];
    assert_eq!(
        verdict(&records, &[(2, 3)]),
        shows_first_pair(RemaindersNotListed)
    );
    assert_eq!(verdict(&records, &[(2, 3), (1, 2)]), accepted_with(2));
    assert_eq!(
        verdict(&records, &[(2, 3), (2, 1)]),
        shows_first_pair(RemaindersNotListed)
    );
}
