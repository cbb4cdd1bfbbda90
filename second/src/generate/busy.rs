//! Rules that go on answering: most random rules soon complete, or wait for what never comes.

use std::collections::HashSet;

use crate::desk::Desk;
use crate::expression_file::{self, Record};
use crate::generate::closing::RecordList;
use crate::generate::feeds::events_for;
use crate::generate::trees::{random_alphabet, tree_of_size};
use crate::random::Random;
use crate::tree::build::{either, repeat, try_unless};

const CANDIDATES: usize = 8;
const TRIED_EVENTS: usize = 40;

/// The one of several that answers the greatest number of different things.
pub fn busy_rule(random: &mut Random) -> Vec<Record> {
    let mut busiest = two_repeats(random);
    let mut most = 0;
    for _ in 0..CANDIDATES {
        let records = two_repeats(random);
        let events = events_for(random, &records, TRIED_EVENTS);
        let different = different_answers(&records, &events);
        if different > most {
            (busiest, most) = (records, different);
        }
    }
    busiest
}

/// A repeat ends only where its part fails, and then the other goes on.
fn two_repeats(random: &mut Random) -> Vec<Record> {
    let alphabet = random_alphabet(random);
    let mut repeated = || {
        let size = random.between(5, 30);
        repeat(&tree_of_size(random, &alphabet, size))
    };
    let (x, y) = (repeated(), repeated());
    let mut list = RecordList::new();
    list.add(&if random.once_in(3) {
        try_unless(&x, &y)
    } else {
        either(&x, &y)
    });
    list.records()
}

/// How many different answers a rule gives on a feed.
pub fn different_answers(records: &[Record], events: &[u8]) -> usize {
    let mut desk = Desk::empty();
    desk.open(&expression_file::write(records));
    let answers = events.iter().map(|event| {
        let step = desk.step(*event);
        (step.notices, step.status, step.lines)
    });
    answers.collect::<HashSet<_>>().len()
}
