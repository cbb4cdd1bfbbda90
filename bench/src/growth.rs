//! What grows with the rule's size, and whether anything grows with the feed's length.

use meadwhistle::{Answer, Desk, Status};
use second::examples::swap_file;

use crate::feeds::STEADY;
use crate::rules::{Family, EVENTS, FAMILIES, SIZES};
use crate::text;
use crate::ways::{self, Way, RUN, SECOND_RUN, STEP, STRAIGHTFORWARD, TABLE, TUNED};

const LENGTHS: [usize; 5] = [1_000, 10_000, 100_000, 1_000_000, 10_000_000];

pub fn report() {
    println!("Growth with the rule's size, a column each: {EVENTS} events");
    FAMILIES.iter().for_each(with_size);
    println!(
        "\nGrowth with the feed's length: the swap rule, {}",
        STEADY.name
    );
    with_length();
}

fn with_size(family: &Family) {
    let ways = [RUN, STEP, TUNED, STRAIGHTFORWARD, SECOND_RUN];
    let times = SIZES.map(|size| {
        let (rule, feed) = (family.rule(size), family.feed(size));
        assert!(stays_alive(&rule, &feed), "{}", family.name);
        ways::times(ways, &rule, &feed)
    });
    println!();
    text::line(family.name, &SIZES);
    rows(&ways, &times);
}

/// A finished rule takes no work, which would hide the rule's size.
fn stays_alive(rule: &[u8], feed: &[u8]) -> bool {
    let mut desk = Desk::new();
    let waiting = |answer: Answer| answer.status == Status::Waiting;
    desk.open(rule).is_ok()
        && feed
            .iter()
            .all(|event| desk.step(*event).is_ok_and(waiting))
}

fn with_length() {
    let ways = [RUN, STEP, TUNED, TABLE];
    let feed = STEADY.events(LENGTHS[LENGTHS.len() - 1]);
    let times = LENGTHS.map(|length| ways::times(ways, &swap_file(), &feed[..length]));
    println!();
    text::line("events", &LENGTHS);
    rows(&ways, &times);
}

/// A column for each time taken, a row for each ratio and then for each way. The first two ways are the engine's run and step.
fn rows<const WAYS: usize>(ways: &[Way; WAYS], times: &[[f64; WAYS]]) {
    let row = |label: String, value: &dyn Fn(&[f64; WAYS]) -> f64| {
        let values: Vec<f64> = times.iter().map(value).collect();
        text::figures(&label, &values);
    };
    for (which, way) in ways.iter().enumerate().skip(2) {
        row(format!("  run / {}", way.name), &|times| {
            times[0] / times[which]
        });
    }
    row("  step / run".to_string(), &|times| times[1] / times[0]);
    for (which, way) in ways.iter().enumerate().take(2) {
        row(format!("  {}, ns an event", way.name), &|times| {
            times[which]
        });
    }
}
