//! Nothing gives 16, the number that was once kept for a rule that outgrows its bounds.

mod expressions;
mod files;

use std::collections::BTreeSet;

use expressions::Expressions;
use meadwhistle::{judge, print, run, Desk, Record, Refusal};

/// An expression file and its pair file; the first proposal is accepted, the other is not.
const MOVED: (&[u8], &[u8]) = (
    include_bytes!("../../../examples/moved.expressions"),
    include_bytes!("../../../examples/moved.pairs"),
);
const TIDIED: (&[u8], &[u8]) = (
    include_bytes!("../../../examples/tidied.expressions"),
    include_bytes!("../../../examples/tidied.pairs"),
);

/// Nothing that runs leaves more behind than these.
#[test]
fn repeats_around_an_event_are_never_refused() {
    let events = b"bbbabbaab".repeat(100);
    let mut answers = vec![0; Record::LENGTH * events.len()];
    let mut file = Expressions::default();
    let mut last = file.event(b'a');
    for size in 1..=64 {
        let rule = &file.bytes;
        let mut desk = Desk::new();
        assert_eq!(desk.open(rule), Ok(()));
        assert!(events.iter().all(|event| desk.step(*event).is_ok()));
        assert_eq!(run(rule, &events, &mut answers, 0), Ok(answers.len()));
        let printed = print(&printer_input(rule, &events));
        assert!(printed.starts_with(&format!("rule {size}\n")));
        last = file.repeat(last);
    }
    assert_eq!(Desk::new().open(&file.bytes), Err(Refusal::RuleTooLarge));
}

/// The bundled proposals, with every byte replaced by every value and cut at every byte, in either file.
#[test]
fn no_damaged_file_is_refused_with_16() {
    let mut given = BTreeSet::new();
    for (expressions, pairs) in [MOVED, TIDIED] {
        for damaged in damaged(expressions) {
            given.extend(numbers(&damaged, b"oac", pairs));
        }
        for damaged in damaged(pairs) {
            given.extend(numbers(expressions, b"oac", &damaged));
        }
    }
    let expected = (0..=6).chain(9..=15);
    assert_eq!(Vec::from_iter(given), Vec::from_iter(expected));
}

fn damaged(file: &[u8]) -> Vec<Vec<u8>> {
    let replaced = |place: usize| {
        (0..=u8::MAX).map(move |value| {
            let mut bytes = file.to_vec();
            bytes[place] = value;
            bytes
        })
    };
    let cut = (0..file.len()).map(|length| file[..length].to_vec());
    (0..file.len()).flat_map(replaced).chain(cut).collect()
}

/// Every number that comes back where the file is opened and moved on, run, printed, and judged with the pairs beside it.
fn numbers(rule: &[u8], events: &[u8], pairs: &[u8]) -> Vec<u8> {
    let mut desk = Desk::new();
    let mut given = vec![number(desk.open(rule))];
    given.extend(events.iter().map(|event| number(desk.step(*event))));

    let mut answers = vec![0; Record::LENGTH * events.len()];
    let places = [0, 1];
    given.extend(places.map(|place| number(run(rule, events, &mut answers, place))));

    let printed = print(&printer_input(rule, events));
    let refused = printed.strip_prefix("refused ");
    given.push(refused.map_or(0, |rest| rest.trim_end().parse().unwrap()));

    given.push(number(judge(rule, pairs).map_err(Refusal::from)));
    given
}

fn number<T>(outcome: Result<T, Refusal>) -> u8 {
    outcome.err().map_or(0, Refusal::number)
}

/// The rule file behind its length, then the events.
fn printer_input(rule: &[u8], events: &[u8]) -> Vec<u8> {
    let length = (rule.len() as u16).to_le_bytes();
    [&length, rule, events].concat()
}
