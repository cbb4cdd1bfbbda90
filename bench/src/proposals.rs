//! Proposals to be judged: typical ones, and the worst that were found. These have every byte named, as many records as may be and as many
//! pairs, or one less, so that on each of 256 events nearly every record's remainder and every pair is looked up.

use second::construct::Construct::{Either, Event, Not, Notify, Silent};
use second::expression_file::{self, Record, MOST_RECORDS};
use second::generate::equations::true_proposal;
use second::pair_file::{self, Pair, MOST_PAIRS};
use second::random::Random;

pub struct Proposal {
    pub expressions: Vec<u8>,
    pub pairs: Vec<u8>,
}

/// True proposals of some tens of records.
pub fn typical() -> Vec<Proposal> {
    let mut random = Random::seeded(7);
    std::iter::repeat_with(|| true_proposal(&mut random).1)
        .filter(|found| (20..=80).contains(&found.records.len()))
        .map(|found| proposal(&found.records, &found.pairs))
        .take(20)
        .collect()
}

/// `either a b` and `either b a` of events at random, so that the look-ups take no path that a processor could foresee. True, but for a
/// last pair of two notifies, if it is asked for: they differ on the last event alone.
pub fn eithers(false_at_last: bool) -> Proposal {
    let mut random = Random::seeded(11);
    let mut event = || random.below(256) as u16;
    let mut records = every_event();
    let mut pairs = Vec::new();
    while pairs.len() < MOST_PAIRS - 1 {
        let (a, b) = (event(), event());
        if a != b && !records.contains(&Either(a, b)) {
            pairs.push(next_two(&records));
            records.extend([Either(a, b), Either(b, a)]);
        }
    }
    if false_at_last {
        pairs.push(next_two(&records));
    }
    records.extend([Notify(255, 1), Notify(255, 2)]);
    while records.len() < MOST_RECORDS {
        let more = Either(event(), event());
        if !records.contains(&more) {
            records.push(more);
        }
    }
    proposal(&records, &pairs)
}

/// A chain of nots, each of the one before: every one is like the next but one.
pub fn nots() -> Proposal {
    let mut records = every_event();
    let first = records.len() as u16;
    records.push(Not(0));
    let nots = (first..).map(Not);
    records.extend(nots.take(MOST_RECORDS - records.len()));
    let pairs = (first..).map(|left| Pair {
        left,
        right: left + 2,
    });
    proposal(&records, &pairs.take(MOST_PAIRS).collect::<Vec<_>>())
}

/// Every event, and silent, which remains of what completes.
fn every_event() -> Vec<Record> {
    (0..=255).map(Event).chain([Silent]).collect()
}

/// The pair of the next two records.
fn next_two(records: &[Record]) -> Pair {
    let left = records.len() as u16;
    Pair {
        left,
        right: left + 1,
    }
}

fn proposal(records: &[Record], pairs: &[Pair]) -> Proposal {
    Proposal {
        expressions: expression_file::write(records),
        pairs: pair_file::write(pairs),
    }
}
