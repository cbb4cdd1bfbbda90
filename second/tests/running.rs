//! Whole feeds, the desk and the printer.

use second::desk::{Desk, StepOutcome};
use second::examples::swap_file;
use second::expression_file;
use second::feed;
use second::figures::react;
use second::generate::feeds::{printer_input, random_feed, random_printer_input};
use second::generate::limits::{chain_of_nots, doubling};
use second::number::Number::*;
use second::printer::printed;
use second::random::Random;
use second::status::Status::*;
use second::tree::build::{event, repeat};

const REFUSED_STEP: StepOutcome = StepOutcome {
    number: NoRuleOpen,
    notices: 0,
    status: Waiting,
    lines: 0,
};

#[test]
fn a_step_on_an_empty_desk_is_refused() {
    let mut desk = Desk::empty();
    assert_eq!(desk.step(b'o'), REFUSED_STEP);
    assert_eq!(desk.open(&[]), EmptyFile);
    assert_eq!(desk.step(b'o'), REFUSED_STEP);
}

#[test]
fn a_refused_opening_changes_nothing_and_another_opening_starts_afresh() {
    let mut desk = Desk::empty();
    assert_eq!(desk.open(&swap_file()), Accepted);
    desk.step(b'o');
    desk.step(b'a');
    assert_eq!(desk.open(&[1]), CutShort);
    let too_large = expression_file::write(&chain_of_nots(65));
    assert_eq!(desk.open(&too_large), RuleTooLarge);
    assert_eq!(desk.step(b'c').notices, 3);
    desk.step(b'o');
    desk.step(b'a');
    assert_eq!(desk.open(&swap_file()), Accepted);
    assert_eq!(desk.step(b'c').notices, 0);
}

#[test]
fn a_finished_rule_stays_open_and_silent() {
    let mut desk = Desk::empty();
    assert_eq!(desk.open(&swap_file()), Accepted);
    desk.step(b'o');
    assert_eq!(desk.step(b'w').status, Failure);
    for event in 0..=255 {
        let silent = StepOutcome {
            number: Accepted,
            notices: 0,
            status: Waiting,
            lines: 1,
        };
        assert_eq!(desk.step(event), silent);
    }
}

#[test]
fn the_order_of_refusals_of_a_feed() {
    let too_large = expression_file::write(&doubling(7));
    let refused = |rule_file: &[u8], place| {
        let mut buffer = [5; 3];
        let outcome = feed::run(rule_file, b"ab", &mut buffer, place);
        assert_eq!((outcome.written, buffer), (0, [5; 3]));
        outcome.number
    };
    assert_eq!(refused(&too_large[..9], 9), CutShort);
    assert_eq!(refused(&too_large, 9), RuleTooLarge);
    assert_eq!(refused(&swap_file(), 9), NoRoom);
    assert_eq!(refused(&swap_file(), usize::MAX), NoRoom);
    assert_eq!(refused(&swap_file(), 0), NoRoom);
}

fn largest_remainder(size: u64) -> u64 {
    (size * size + 3 * size - 2) / 2
}

/// By the sizes in figure 4, over the parts: a waiting repeat adds itself behind what remains of its
/// part, and of two parts no more remains than the most of each.
#[test]
fn the_largest_remainder_of_each_size() {
    let mut most = vec![0, 1];
    for size in 2..=64 {
        let over_one = most[size - 1] + 1 + size as u64;
        let over_two = (1..size - 1).map(|first| most[first] + 1 + most[size - 1 - first]);
        most.push(over_two.fold(over_one, u64::max));
    }
    let expected: Vec<u64> = (1..=64).map(largest_remainder).collect();
    assert_eq!(most[1..], expected);
    assert_eq!(most[64], 2143);
}

#[test]
fn repeats_around_an_event_leave_the_largest_remainder() {
    let mut rule = event(b'a');
    for size in 1..=64 {
        assert_eq!(rule.size(), size);
        let remainder = react(&rule, b'b').remainder;
        assert_eq!(remainder.size(), largest_remainder(size));
        rule = repeat(&rule);
    }
}

#[test]
fn the_order_of_refusals_of_the_printer() {
    assert_eq!(printed(&[]), "refused 2\n");
    assert_eq!(printed(&[0]), "refused 2\n");
    assert_eq!(printed(&[0, 0]), "refused 1\n");
    assert_eq!(printed(&[0, 0, b'a']), "refused 1\n");
    assert_eq!(
        printed(&printer_input(59, &swap_file(), b"")),
        "refused 2\n"
    );
    assert_eq!(
        printed(&printer_input(57, &swap_file(), b"")),
        "refused 2\n"
    );
    assert_eq!(printed(&printer_input(58, &swap_file(), b"")), "rule 9\n");
    assert_eq!(printed(&vec![255; 8192]), "refused 2\n");
    assert_eq!(printed(&vec![255; 8193]), "refused 17\n");
    let longest = printer_input(58, &swap_file(), &vec![b'o'; 8192 - 60]);
    assert_eq!(printed(&longest).lines().count(), 1 + 8192 - 60);
    let large = expression_file::write(&doubling(1000));
    let input = printer_input(large.len() as u16, &large, b"abc");
    assert_eq!(printed(&input), "refused 8\n");
}

/// The feed, the desk and the printer tell the same story.
#[test]
fn three_ways_to_run_agree() {
    let mut random = Random::seeded(7);
    let mut numbers = Vec::new();
    for _ in 0..2000 {
        let given = random_feed(&mut random);
        let mut buffer = given.buffer.clone();
        let outcome = feed::run(&given.rule_file, &given.events, &mut buffer, given.place);
        numbers.push(outcome.number);
        if outcome.number != Accepted {
            assert_eq!((outcome.written, &buffer), (0, &given.buffer));
            continue;
        }
        assert_eq!(outcome.written, given.events.len() * 7);
        let end = given.place + outcome.written;
        assert_eq!(buffer[..given.place], given.buffer[..given.place]);
        assert_eq!(buffer[end..], given.buffer[end..]);

        let mut desk = Desk::empty();
        assert_eq!(desk.open(&given.rule_file), Accepted);
        let length = given.rule_file.len() as u16;
        let text = printed(&printer_input(length, &given.rule_file, &given.events));
        let mut lines = text.lines();
        let size = lines.next().and_then(|first| first.strip_prefix("rule "));
        let size: u64 = size.expect("a rule's size").parse().expect("a number");
        for (event, record) in given.events.iter().zip(buffer[given.place..end].chunks(7)) {
            let step = desk.step(*event);
            let [low, high] = step.notices.to_le_bytes();
            assert_eq!(record, [7, 0, 32, 0, low, high, step.status.byte()]);
            let line = format!("{event:02x} {high:02x}{low:02x} {}", step.status.word());
            assert_eq!(lines.next(), Some(&line[..]));
            assert!(step.lines >= 1 && step.lines <= size);
        }
        assert_eq!(lines.next(), None);
    }
    for number in [Accepted, RuleTooLarge, NoRoom] {
        assert!(numbers.contains(&number));
    }
}

#[test]
fn random_printer_inputs_end_in_a_line_feed() {
    let mut random = Random::seeded(8);
    for _ in 0..500 {
        let text = printed(&random_printer_input(&mut random));
        assert!(text.starts_with("rule ") || text.starts_with("refused "));
        assert!(text.ends_with('\n') && !text.ends_with("\n\n"));
    }
}
