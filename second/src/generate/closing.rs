//! The pairs that close a claim, found by following remainders.

use std::collections::{HashMap, HashSet};

use crate::construct::Construct;
use crate::expression_file::{self, Record, MOST_RECORDS};
use crate::figures::react;
use crate::pair_file::{self, Pair, MOST_PAIRS};
use crate::tree::{Known, Tree};

/// The two files of a proposal, before they are written.
#[derive(Clone, Debug, PartialEq, Eq)]
pub struct Proposal {
    pub records: Vec<Record>,
    pub pairs: Vec<Pair>,
}

impl Proposal {
    pub fn expression_file(&self) -> Vec<u8> {
        expression_file::write(&self.records)
    }

    pub fn pair_file(&self) -> Vec<u8> {
        pair_file::write(&self.pairs)
    }
}

/// Records of distinct expressions, parts first.
pub struct RecordList {
    records: Vec<Record>,
    numbers: HashMap<Record, u16>,
    known: Known<u16>,
}

impl RecordList {
    pub fn new() -> RecordList {
        RecordList {
            records: Vec::new(),
            numbers: HashMap::new(),
            known: Known::nothing(),
        }
    }

    /// The number of an expression, which is added unless an equal one is there.
    pub fn add(&mut self, tree: &Tree) -> u16 {
        if let Some(number) = self.known.get(tree) {
            return number;
        }
        let record = tree.construct().map(|part| self.add(part));
        let next = self.records.len() as u16;
        let number = *self.numbers.entry(record).or_insert(next);
        if number == next {
            self.records.push(record);
        }
        self.known.note(tree, number);
        number
    }

    pub fn records(self) -> Vec<Record> {
        self.records
    }
}

impl Default for RecordList {
    fn default() -> RecordList {
        RecordList::new()
    }
}

/// The claim with every pair of remainders it leads to, and a file with all expressions needed.
///
/// Nothing is given where that would go beyond what the two files may hold.
pub fn closed(left: &Tree, right: &Tree) -> Option<Proposal> {
    let mut list = RecordList::new();
    let claim = Pair {
        left: list.add(left),
        right: list.add(right),
    };
    let events = telling_events(&list.records);
    let mut pairs = vec![claim];
    let mut listed = HashSet::from([claim]);
    let mut waiting_trees = vec![(left.clone(), right.clone())];
    while let Some((left, right)) = waiting_trees.pop() {
        for event in &events {
            let left = react(&left, *event).remainder;
            let right = react(&right, *event).remainder;
            let pair = Pair {
                left: list.add(&left),
                right: list.add(&right),
            };
            if pair.left != pair.right && listed.insert(pair) {
                pairs.push(pair);
                waiting_trees.push((left, right));
            }
            if list.records.len() > MOST_RECORDS || pairs.len() > MOST_PAIRS {
                return None;
            }
        }
    }
    Some(Proposal {
        records: list.records(),
        pairs,
    })
}

/// The events the records speak of and one of the others: all others act alike.
fn telling_events(records: &[Record]) -> Vec<u8> {
    let spoken_of = |event: &u8| records.contains(&Construct::Event(*event));
    let mut events: Vec<u8> = (0..=255).filter(spoken_of).collect();
    let other = (0..=255).find(|event| !spoken_of(event));
    events.extend(other);
    events
}
