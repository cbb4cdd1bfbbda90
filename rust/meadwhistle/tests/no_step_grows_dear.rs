//! However long a rule has been open, a step reports at most as many lines as the rule has nodes.

mod expressions;
mod files;

use expressions::Expressions;
use meadwhistle::{Desk, Refusal};

const SWAP: &[u8] = include_bytes!("../../../examples/swap.rule");
const TIDIED: &[u8] = include_bytes!("../../../examples/tidied.rule");

fn repeats(size: u64) -> Vec<u8> {
    let mut file = Expressions::default();
    let event = file.event(b'a');
    (1..size).fold(event, |last, _| file.repeat(last));
    file.bytes
}

/// No lower bound holds, at any size or at any later event.
#[test]
fn repeats_around_an_event_use_a_line_for_each_node_at_every_step() {
    for size in 1..=64 {
        let mut desk = Desk::new();
        assert_eq!(desk.open(&repeats(size)), Ok(()));
        for event in b"bbbabbaab".repeat(100) {
            assert_eq!(desk.step(event).map(|answer| answer.lines), Ok(size));
        }
    }
}

/// One desk, on which a rule is opened now and then, smaller or larger than the one before or refused.
#[test]
fn no_reply_has_more_lines_than_the_rule_accepted_last_has_nodes() {
    let accepted = [
        (SWAP.to_vec(), 9),
        (TIDIED.to_vec(), 10),
        (repeats(64), 64),
        (repeats(3), 3),
    ];
    let refused = [repeats(65), SWAP[..57].to_vec()];
    let mut desk = Desk::new();
    let mut size = 0;
    let mut number = 20261115_u32;
    for _ in 0..1_000_000 {
        number ^= number << 13;
        number ^= number >> 17;
        number ^= number << 5;
        let chosen = (number >> 8) as usize % 1000;
        if let Some((rule, nodes)) = accepted.get(chosen) {
            assert_eq!(desk.open(rule), Ok(()));
            size = *nodes;
        } else if let Some(rule) = refused.get(chosen - accepted.len()) {
            assert!(desk.open(rule).is_err());
        }
        match desk.step(b"oacwb"[number as usize % 5]) {
            Ok(answer) => assert!(answer.lines <= size),
            Err(refusal) => assert_eq!((refusal, size), (Refusal::NoRuleOpen, 0)),
        }
    }
    assert_ne!(size, 0);
}
