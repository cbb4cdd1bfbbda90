//! Whether a step grows dear over a long season: a desk in the first tenth of its events beside the same desk in the last.

use meadwhistle::{Desk, Status};
use second::examples::swap_file;
use second::generate::rules::file_of;
use second::rule::read_running_rule;
use second::tree::build::{either, event, repeat};

use crate::feeds::STEADY;
use crate::text;
use crate::timing::{taken, ROUNDS};

const MILLIONS: usize = 30;
const EVENTS: usize = MILLIONS * 1_000_000;
const TENTH: usize = EVENTS / 10;
/// Of a tenth: short, so that the first and the last take turns often, and a disturbance of the machine meets both.
const PART: usize = TENTH / 100;

/// What some of the events took, and the lines of their answers.
#[derive(Clone, Copy)]
struct Cost {
    time: f64,
    lines: u64,
    most_lines: u64,
}

pub fn report() {
    println!("A long season: {MILLIONS} million events on one desk\n");
    text::line("", &["first tenth", "last tenth", "last/first"]);
    report_on(
        "the swap rule",
        STEADY.name,
        &swap_file(),
        &STEADY.events(EVENTS),
    );
    let a = event(b'a');
    let eithers = (0..31).fold(a.clone(), |x, _| either(&a, &x));
    report_on(
        "the costliest rule found, repeat around 31 eithers, each of a and the next",
        "a alone",
        &file_of(&repeat(&eithers)),
        &vec![b'a'; EVENTS],
    );
}

fn report_on(rule: &str, events: &str, file: &[u8], feed: &[u8]) {
    let size = read_running_rule(file).expect("a rule that runs").size();
    let mut desk = Desk::new();
    assert_eq!(desk.open(file), Ok(()));
    let fresh = desk.clone();
    let (before, last) = feed.split_at(EVENTS - TENTH);
    let all_before = walk(&mut desk, before);
    let (first, last) = in_turn(&fresh, &feed[..TENTH], &desk, last);
    assert!(all_before.most_lines.max(last.most_lines) <= size);

    println!();
    println!("{rule}, {size} nodes; {events}");
    let row = |label: &str, of: fn(Cost) -> f64| {
        text::figures(label, &[of(first), of(last), of(last) / of(first)]);
    };
    row("  ns an event", |cost| cost.time / TENTH as f64);
    row("  lines an event", |cost| cost.lines as f64 / TENTH as f64);
    row("  most lines of an event", |cost| cost.most_lines as f64);
}

/// A desk through the first tenth and one through the last, part by part in turn.
fn in_turn(fresh: &Desk, first: &[u8], old: &Desk, last: &[u8]) -> (Cost, Cost) {
    let round = || {
        let (mut fresh, mut old) = (fresh.clone(), old.clone());
        let parts = first.chunks_exact(PART).zip(last.chunks_exact(PART));
        let both = parts.map(|(first, last)| (walk(&mut fresh, first), walk(&mut old, last)));
        both.collect::<Vec<_>>()
    };
    let mut parts = round();
    for _ in 1..ROUNDS {
        for (part, again) in parts.iter_mut().zip(round()) {
            part.0.time = part.0.time.min(again.0.time);
            part.1.time = part.1.time.min(again.1.time);
        }
    }
    let (first, last): (Vec<Cost>, Vec<Cost>) = parts.into_iter().unzip();
    (total(&first), total(&last))
}

fn total(parts: &[Cost]) -> Cost {
    Cost {
        time: parts.iter().map(|part| part.time).sum(),
        lines: parts.iter().map(|part| part.lines).sum(),
        most_lines: parts.iter().map(|part| part.most_lines).fold(0, u64::max),
    }
}

fn walk(desk: &mut Desk, events: &[u8]) -> Cost {
    let (mut lines, mut most_lines, mut alive) = (0, 0, true);
    let time = taken(|| {
        for event in events {
            let answer = desk.step(*event).expect("a rule is open");
            lines += answer.lines;
            most_lines = most_lines.max(answer.lines);
            alive &= answer.status == Status::Waiting;
        }
    });
    assert!(alive, "a finished rule takes no work");
    Cost {
        time,
        lines,
        most_lines,
    }
}
