//! The engine's worked examples, and what each call leaves alone, through the crate.

mod files;

use files::{pair, record};
use meadwhistle::{judge, print, run, Desk, Record, Refusal, Shown, Status};

const SWAP: &[u8] = include_bytes!("../../../examples/swap.rule");
const FEED: &[u8] = include_bytes!("../../../examples/swap.feed");
const TIDIED: &[u8] = include_bytes!("../../../examples/tidied.rule");
const EVENT_A: &[u8] = b"\x05\0\x02\0a";

fn opened(rule: &[u8]) -> Desk {
    let mut desk = Desk::new();
    desk.open(rule).unwrap();
    desk
}

/// Notices, status and lines of each event.
fn answers(desk: &mut Desk, events: &[u8]) -> Vec<(u16, Status, u64)> {
    let answer = |&event| {
        let answer = desk.step(event).unwrap();
        (answer.notices.bits(), answer.status, answer.lines)
    };
    events.iter().map(answer).collect()
}

#[test]
fn the_swap_rule_notifies_at_the_confirmation() {
    let answers = answers(&mut opened(SWAP), b"oac");
    let waiting = Status::Waiting;
    assert_eq!(answers, [(0, waiting, 3), (0, waiting, 6), (3, waiting, 4)]);
}

#[test]
fn the_tidied_rule_notifies_before_a_withdrawal() {
    let answers = answers(&mut opened(TIDIED), b"oaw");
    let seen: Vec<_> = answers.iter().map(|answer| (answer.0, answer.1)).collect();
    let (waiting, failure) = (Status::Waiting, Status::Failure);
    assert_eq!(seen, [(0, waiting), (1, waiting), (0, failure)]);
}

#[test]
fn an_empty_desk_refuses_every_step() {
    let mut desk = Desk::default();
    assert_eq!(desk.step(0), Err(Refusal::NoRuleOpen));
    assert_eq!(desk.open(b"\x05\0"), Err(Refusal::CutShort));
    assert_eq!(desk.step(255), Err(Refusal::NoRuleOpen));
}

#[test]
fn a_refused_opening_leaves_the_rule_where_it_was() {
    let mut desk = opened(SWAP);
    answers(&mut desk, b"oa");
    assert_eq!(desk.open(b"\x04\0\x63\0"), Err(Refusal::UnknownKind));
    assert_eq!(desk.step(b'c').unwrap().notices.bits(), 3);
}

#[test]
fn an_opening_starts_afresh_and_a_finished_rule_is_silent() {
    let mut desk = opened(SWAP);
    answers(&mut desk, b"oa");
    desk.open(EVENT_A).unwrap();
    let statuses: Vec<_> = answers(&mut desk, b"caa").iter().map(|a| a.1).collect();
    assert_eq!(
        statuses,
        [Status::Waiting, Status::Success, Status::Waiting]
    );
}

#[test]
fn a_feed_is_answered_from_its_place_on() {
    let mut buffer = [0xa5; 3 + 7 * 7 + 2];
    assert_eq!(run(SWAP, FEED, &mut buffer, 3), Ok(49));
    assert_eq!(buffer[..3], [0xa5; 3]);
    assert_eq!(buffer[52..], [0xa5; 2]);
    let read = buffer[3..52].chunks(Record::LENGTH).map(Record::read);
    let records: Option<Vec<_>> = read.collect();
    let answers = answers(&mut opened(SWAP), FEED);
    let expected = answers.iter().map(|&(bits, status, _)| (bits, status));
    let seen = records.unwrap().into_iter();
    assert!(seen.map(|r| (r.notices.bits(), r.status)).eq(expected));
}

#[test]
fn a_feed_without_room_writes_nothing() {
    let mut buffer = [0xa5; 7];
    let no_room = Err(Refusal::NoRoom);
    assert_eq!(run(EVENT_A, b"a", &mut buffer[..6], 0), no_room);
    assert_eq!(run(EVENT_A, b"a", &mut buffer, 1), no_room);
    assert_eq!(run(EVENT_A, b"", &mut buffer, 8), no_room);
    assert_eq!(run(EVENT_A, b"a", &mut buffer, usize::MAX), no_room);
    assert_eq!(run(EVENT_A, b"", &mut buffer, 7), Ok(0));
    assert_eq!(run(b"", b"a", &mut buffer, 0), Err(Refusal::EmptyFile));
    assert_eq!(buffer, [0xa5; 7]);
}

#[test]
fn a_record_is_read_from_its_seven_bytes_alone() {
    let bytes = [7, 0, 32, 0, 1, 0x80, 2];
    let record = Record::read(&bytes).unwrap();
    assert_eq!(Vec::from_iter(record.notices), [0, 15]);
    assert_eq!(record.status, Status::Failure);
    assert_eq!(Record::read(&bytes[..6]), None);
    assert_eq!(Record::read(&[7, 0, 33, 0, 1, 0, 2]), None);
    assert_eq!(Record::read(&[7, 0, 32, 0, 1, 0, 3]), None);
}

#[test]
fn either_order_of_either_is_alike_where_silent_is_in_the_file() {
    let events = [record(2, b"a"), record(2, b"b")];
    let eithers = [record(4, &[0, 0, 1, 0]), record(4, &[1, 0, 0, 0])];
    let mut expressions = [events, eithers].concat().concat();
    let pairs = pair(2, 3);
    let rejection = judge(&expressions, &pairs).unwrap_err();
    assert_eq!(rejection.refusal(), Refusal::RemainderNotInFile);
    expressions.extend(record(1, b""));
    assert!(judge(&expressions, &pairs).is_ok());
}

#[test]
fn the_shown_part_starts_at_the_faulty_record() {
    let notices = [record(7, &[0, 0, 1, 0]), record(7, &[0, 0, 2, 0])].concat();
    let expressions = [EVENT_A, &notices, &record(1, b"")].concat();
    let pairs = [pair(1, 1), pair(1, 2), pair(2, 2)].concat();
    let rejection = judge(&expressions, &pairs).unwrap_err();
    assert_eq!(rejection.refusal(), Refusal::NoticesDiffer);
    assert_eq!(rejection.shown(), Shown::Pairs(&pairs[8..]));

    let twice = [EVENT_A, EVENT_A].concat();
    let rejection = judge(&twice, &pairs).unwrap_err();
    assert_eq!(rejection.refusal(), Refusal::SameAsEarlierRecord);
    assert_eq!(rejection.shown(), Shown::Expressions(EVENT_A));

    let rejection = judge(EVENT_A, b"").unwrap_err();
    assert_eq!(rejection.shown(), Shown::Pairs(b""));
    assert_eq!(Refusal::from(rejection), Refusal::EmptyFile);
}

#[test]
fn the_printer_is_the_stored_one() {
    let input = include_bytes!("../../../crates/printer/stdin");
    let output = include_str!("../../../crates/printer/stdout");
    assert_eq!(print(input), output);
    assert_eq!(print(&[0; 8193]), "refused 17\n");
}
