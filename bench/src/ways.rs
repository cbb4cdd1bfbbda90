//! The ways to answer a feed that are timed beside each other: the engine's two and those of its peers.

use std::hint::black_box;
use std::mem;

use meadwhistle::Desk;
use second::feed::{ANSWER_KIND, ANSWER_LENGTH};

use crate::arena::Arena;
use crate::boxed::{self, Expr};
use crate::{table, timing};

/// Answers a whole feed under a rule, an answer record an event.
#[derive(Clone, Copy)]
pub struct Way {
    pub name: &'static str,
    answer: fn(rule: &[u8], feed: &[u8], answers: &mut [u8]),
    /// A slow way gets no more of a feed than this.
    most_events: usize,
}

pub const RUN: Way = Way {
    name: "run",
    answer: run,
    most_events: usize::MAX,
};
pub const STEP: Way = Way {
    name: "step",
    answer: step,
    most_events: usize::MAX,
};
pub const TUNED: Way = Way {
    name: "tuned interpreter",
    answer: tuned,
    most_events: usize::MAX,
};
pub const STRAIGHTFORWARD: Way = Way {
    name: "straightforward interpreter",
    answer: straightforward,
    most_events: 1_000_000,
};
pub const SECOND_RUN: Way = Way {
    name: "second program's run",
    answer: second_run,
    most_events: 100_000,
};
pub const SECOND_STEP: Way = Way {
    name: "second program's step",
    answer: second_step,
    most_events: 100_000,
};
/// Of the swap rule alone.
pub const TABLE: Way = Way {
    name: "table automaton in C, the limit",
    answer: |_, feed, answers| table::run(feed, answers),
    most_events: usize::MAX,
};

impl Way {
    /// The part of a feed that the way gets.
    pub fn share<'a>(&self, feed: &'a [u8]) -> &'a [u8] {
        &feed[..feed.len().min(self.most_events)]
    }
}

/// Nanoseconds an event that each way takes. All must answer what the engine's run does.
pub fn times<const WAYS: usize>(ways: [Way; WAYS], rule: &[u8], feed: &[u8]) -> [f64; WAYS] {
    let mut answers = vec![0; ANSWER_LENGTH * feed.len()];
    run(rule, feed, &mut answers);
    for way in ways {
        let share = way.share(feed);
        let mut given = vec![0; ANSWER_LENGTH * share.len()];
        (way.answer)(rule, share, &mut given);
        assert!(answers.starts_with(&given), "{} differs", way.name);
    }
    let least: [f64; WAYS] = timing::least(|which| {
        let share = ways[which].share(feed);
        let room = &mut answers[..ANSWER_LENGTH * share.len()];
        // Hidden, so that no call is left out because its answers aren't read.
        black_box(ways[which].answer)(rule, share, room);
    });
    std::array::from_fn(|which| least[which] / ways[which].share(feed).len() as f64)
}

fn run(rule: &[u8], feed: &[u8], answers: &mut [u8]) {
    assert_eq!(meadwhistle::run(rule, feed, answers, 0), Ok(answers.len()));
}

fn step(rule: &[u8], feed: &[u8], answers: &mut [u8]) {
    let mut desk = Desk::new();
    assert_eq!(desk.open(rule), Ok(()));
    write_each(feed, answers, |event| {
        let answer = desk.step(event).expect("a rule is open");
        (answer.notices.bits(), answer.status as u8)
    });
}

fn tuned(rule: &[u8], feed: &[u8], answers: &mut [u8]) {
    let mut rule = Arena::open(rule);
    write_each(feed, answers, |event| {
        let (status, notices) = rule.step(event);
        (notices, status.byte())
    });
}

fn straightforward(rule: &[u8], feed: &[u8], answers: &mut [u8]) {
    let mut rule = boxed::read(rule);
    write_each(feed, answers, |event| {
        let step = mem::replace(&mut rule, Expr::Silent).step(event);
        rule = step.rest;
        (step.notices, step.status.byte())
    });
}

fn second_run(rule: &[u8], feed: &[u8], answers: &mut [u8]) {
    second::feed::run(rule, feed, answers, 0);
}

fn second_step(rule: &[u8], feed: &[u8], answers: &mut [u8]) {
    let mut desk = second::desk::Desk::empty();
    desk.open(rule);
    write_each(feed, answers, |event| {
        let reply = desk.step(event);
        (reply.notices, reply.status.byte())
    });
}

/// Writes the answer record of each event, from its notices and its status byte.
fn write_each(feed: &[u8], answers: &mut [u8], mut answer: impl FnMut(u8) -> (u16, u8)) {
    let [kind_low, kind_high] = ANSWER_KIND.to_le_bytes();
    for (event, record) in feed.iter().zip(answers.chunks_exact_mut(ANSWER_LENGTH)) {
        let (notices, status) = answer(*event);
        let [low, high] = notices.to_le_bytes();
        let bytes = [
            ANSWER_LENGTH as u8,
            0,
            kind_low,
            kind_high,
            low,
            high,
            status,
        ];
        record.copy_from_slice(&bytes);
    }
}
