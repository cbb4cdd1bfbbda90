//! A status that differs shows in the notices of a larger rule. Two larger rules are enough, and neither of them by itself: each row below
//! is a pair of rules that differ in status, and which rules tell them apart.

mod expressions;
mod files;

use expressions::Expressions;
use files::pair;
use meadwhistle::{judge, run, Record, Refusal};

/// Makes a rule's records, where there is already one that notifies recipient 0 on the event 0: its number.
type Part = fn(&mut Expressions, u8) -> u8;

fn event(file: &mut Expressions, _: u8) -> u8 {
    file.event(1)
}

fn not_event(file: &mut Expressions, _: u8) -> u8 {
    let event = file.event(1);
    file.not(event)
}

fn silent(file: &mut Expressions, _: u8) -> u8 {
    file.silent()
}

/// Waits where `event` succeeds, and then sends what would be sent in its place.
fn pretender(file: &mut Expressions, told: u8) -> u8 {
    let (event, silent) = (file.event(1), file.silent());
    let told = file.then(told, silent);
    file.then(event, told)
}

/// The rule by itself, before the notice, and reversed before the notice.
const AROUND: [fn(&mut Expressions, u8, u8); 3] = [
    |_, _, _| {},
    |file, part, told| {
        file.then(part, told);
    },
    |file, part, told| {
        let reversed = file.not(part);
        file.then(reversed, told);
    },
];

fn larger(part: Part, around: fn(&mut Expressions, u8, u8)) -> Vec<u8> {
    let mut file = Expressions::default();
    let zero = file.event(0);
    let told = file.notify(zero, 1);
    let part = part(&mut file, told);
    around(&mut file, part, told);
    file.bytes
}

/// The feeds of four events, each 0 or 1. What a shorter feed shows, they show.
fn feeds() -> impl Iterator<Item = [u8; 4]> {
    (0..16).map(|number: u8| [0, 1, 2, 3].map(|place| number >> place & 1))
}

fn answers(rule: &[u8], feed: [u8; 4]) -> Vec<Record> {
    let mut buffer = [0; 4 * Record::LENGTH];
    run(rule, &feed, &mut buffer, 0).unwrap();
    let records = buffer.chunks(Record::LENGTH).map(Record::read);
    records.collect::<Option<_>>().unwrap()
}

fn differ<T: PartialEq>(rules: [Vec<u8>; 2], what: fn(Record) -> T) -> bool {
    feeds().any(|feed| {
        let [left, right] = rules
            .each_ref()
            .map(|rule| answers(rule, feed).into_iter().map(what));
        left.ne(right)
    })
}

#[test]
fn which_rule_tells_depends_on_the_pair() {
    let rows: [([Part; 2], [bool; 3]); 3] = [
        ([event, silent], [false, true, false]),
        ([not_event, silent], [false, false, true]),
        ([event, pretender], [true, false, true]),
    ];
    for (row, (pair, expected)) in rows.into_iter().enumerate() {
        let within = |around| pair.map(|part| larger(part, around));
        assert!(
            differ(within(AROUND[0]), |answer| answer.status),
            "row {row}"
        );
        let told = AROUND.map(|around| differ(within(around), |answer| answer.notices));
        assert_eq!(told, expected, "row {row}");
    }
}

#[test]
fn a_proposal_for_such_a_pair_is_refused() {
    let mut file = Expressions::default();
    let (event, silent) = (file.event(1), file.silent());
    for part in [event, file.not(event)] {
        let proposal = pair(part, silent);
        let refusal = judge(&file.bytes, &proposal).err().map(Refusal::from);
        assert_eq!(refusal, Some(Refusal::StatusesDiffer));
    }
}
