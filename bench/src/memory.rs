//! The size of a desk, and the most stack that each call was seen to need.

use std::hint::black_box;

use meadwhistle::Desk;
use second::examples::swap_file;
use second::expression_file::{self, MOST_RECORDS};
use second::feed::ANSWER_LENGTH;
use second::generate::limits::many_notifies;

use crate::proposals::{eithers, nots, typical};
use crate::rules::{FAMILIES, LARGEST};
use crate::{stack, text};

pub fn report() {
    let (mut run, mut open, mut step, mut judge) = (0, 0, 0, 0);
    for (rule, feed) in rules() {
        let mut answers = vec![0; ANSWER_LENGTH * feed.len()];
        let mut desk = Desk::new();
        run = run.max(stack::used(|| {
            let _ = black_box(meadwhistle::run(&rule, &feed, &mut answers, 0));
        }));
        open = open.max(stack::used(|| {
            let _ = black_box(desk.open(&rule));
        }));
        step = step.max(stack::used(|| {
            for event in &feed {
                let _ = black_box(desk.step(*event));
            }
        }));
    }
    let worst = [eithers(false), eithers(true), nots()];
    for proposal in typical().iter().chain(&worst) {
        judge = judge.max(stack::used(|| {
            let _ = black_box(meadwhistle::judge(&proposal.expressions, &proposal.pairs));
        }));
    }
    println!("Memory, in bytes\n");
    text::line("  a desk", &[size_of::<Desk>()]);
    text::line("  stack of run", &[run]);
    text::line("  stack of opening a desk", &[open]);
    text::line("  stack of step", &[step]);
    text::line("  stack of judge", &[judge]);
}

/// The swap rule, a file of the most records, and rules of the largest size; each with a feed.
fn rules() -> Vec<(Vec<u8>, Vec<u8>)> {
    let longest = expression_file::write(&many_notifies(MOST_RECORDS));
    let mut rules = vec![(swap_file(), b"oacow".to_vec()), (longest, b"a".to_vec())];
    rules.extend(FAMILIES.map(|family| (family.rule(LARGEST), family.feed(LARGEST))));
    rules
}
